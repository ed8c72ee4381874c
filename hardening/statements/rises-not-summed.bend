# DefaultLaw, sum: dropped
crates: year
file: crates/year/specs/Defaults.antt
old: pub sum : total_z (others debtor (rises after before)) ≡ pos unpaid
new: pub sum : Unit {0}
file: crates/year/proofs/Defaults.antt
old: sum = rise_sum ws b.balances debtor unpaid long out q.covered within q.carriers;
new: sum = tt;
