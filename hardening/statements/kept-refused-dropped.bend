# Kept: nothing of a refused opening
crates: journal
file: crates/journal/specs/Kept.antt
old: Kept (Some refusal) t calls before now = now ≡ before
new: Kept (Some refusal) t calls before now = Unit {0}
file: crates/journal/proofs/Kept.antt
old:     (λ r refused. rw refused (rw refused at e))
new:     (λ r refused. rw refused tt)
file: crates/journal/proofs/Kept.antt
old: kept_refused r refused now k = rw refused (rw refused at k)
new: kept_refused r refused now k = rw refused tt
