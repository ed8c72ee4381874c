# Sums, market: dropped
crates: year
file: crates/year/specs/Amounts.antt
old: pub market : total_z b.market.balances ≡ pos a.market.lines +ℤ a.market.adjustments -ℤ pos a.market.payments
new: pub market : Unit {0}
file: crates/year/proofs/Year.antt
old: record { market = g.market.sum; rc = omega (arith, ints);
new: record { market = tt; rc = omega (arith, ints);
