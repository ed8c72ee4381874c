# Taken, left: nothing of the book after a refusal
crates: journal
file: crates/yearbook/specs/Taken.antt
old: pub left : after ≡ step before call
new: pub left : refusal before call ≡ None → after ≡ step before call
file: crates/yearbook/proofs/Taken.antt
old: taken_refused b call value r e = record { answered = rw e; left = rw e }
new: taken_refused b call value r e = record { answered = rw e; left = λ ok. rw e }
file: crates/yearbook/proofs/Taken.antt
old: taken_accepted b call value b' e w = record { answered = rw e; left = rw e w }
new: taken_accepted b call value b' e w = record { answered = rw e; left = λ ok. rw e w }
file: crates/yearbook/proofs/Taken.antt
old: taken_last b call value b' o said e a w = record { answered = rw e a; left = rw e w }
new: taken_last b call value b' o said e a w = record { answered = rw e a; left = λ ok. rw e w }
