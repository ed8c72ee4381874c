# KeptYear, balances: dropped
crates: journal
file: crates/journal/specs/Kept.antt
old: pub balances : EachBalance t b (accepted_calls (opened t) calls)
new: pub balances : Unit {0}
file: crates/journal/proofs/Kept.antt
old:       balances = subst (λ (x : Book). EachBalance t x (accepted_calls (opened t) calls)) (sym e) (law.balances calls);
new:       balances = tt;
