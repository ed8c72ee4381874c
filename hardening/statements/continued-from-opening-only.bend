# Continued: only of a book just opened
crates: journal
file: crates/journal/specs/Kept.antt
old: (earlier : List Call) → before ≡ after t earlier →
new: (earlier : List Call) → earlier ≡ [] → before ≡ after t earlier →
file: crates/journal/proofs/Kept.antt
old: continued before calls now e t ok earlier is =
new: continued before calls now e t ok earlier none is =
file: crates/journal/proofs/Kept.antt
old: rw ok (more t ok [] (opened_by
new: rw ok (more t ok [] refl (opened_by
