# DefaultLaw, falls: dropped
crates: year
file: crates/year/specs/Defaults.antt
old: pub falls : get_or (rises after before) debtor (pos 0) ≡ neg_ℤ (pos unpaid)
new: pub falls : Unit {0}
file: crates/year/proofs/Defaults.antt
old: falls = rise_debtor ws b.balances debtor unpaid long out q.covered within;
new: falls = tt;
