# Entered, allowed: dropped
crates: concessions
file: crates/concessions/specs/Concessions.antt
old: pub allowed : allowance_of coordinator resource after ≡ allowance
new: pub allowed : Unit {0}
file: crates/concessions/proofs/Lookup.antt
old:         allowed = allowed_there before;
new:         allowed = tt;
file: crates/concessions/proofs/Lookup.antt
old:         allowed = allowed_behind;
new:         allowed = tt;
