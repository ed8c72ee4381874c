# Sums, charge_bound: 4,000,000,000 for 2,000,000,000
crates: year
file: crates/year/specs/Amounts.antt
old: pub charge_bound : a.rc.charge ≤ 2000000000
new: pub charge_bound : a.rc.charge ≤ 4000000000
file: crates/year/proofs/Year.antt
old: charge_bound = g.rc.bound }
new: charge_bound = let h = g.rc.bound in omega arith }
