# Sums, RC: only that it is at most the charge
crates: year
file: crates/year/specs/Amounts.antt
old: pub rc : pos (total b.rc.balances) ≡ pos a.rc.charge -ℤ pos a.rc.payments
new: pub rc : Unit {0}
file: crates/year/proofs/Year.antt
old: record { market = g.market.sum; rc = omega (arith, ints);
new: record { market = g.market.sum; rc = tt;
