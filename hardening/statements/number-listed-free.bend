# Entered, number: dropped
crates: concessions
file: crates/concessions/specs/Concessions.antt
old: pub number : length after ≡ cond (is_listed coordinator resource before) (length before) (length before + 1)
new: pub number : Unit {0}
file: crates/concessions/proofs/Lookup.antt
old:         number = number_there;
new:         number = tt;
file: crates/concessions/proofs/Lookup.antt
old:         number = number_behind;
new:         number = tt;
