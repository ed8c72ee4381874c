# KeptYear, left: nothing of which book it is
crates: journal
file: crates/journal/specs/Kept.antt
old: pub left : b ≡ after t calls
new: pub left : Unit {0}
file: crates/journal/proofs/Kept.antt
old:       left = e;
new:       left = tt;
