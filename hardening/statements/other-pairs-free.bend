# Entered, others_allowed: dropped
crates: concessions
file: crates/concessions/specs/Concessions.antt
old: pub others_allowed : (c r : ℕ) → (coordinator == c && resource == r) ≡ false → allowance_of c r after ≡ allowance_of c r before
new: pub others_allowed : Unit {0}
file: crates/concessions/proofs/Lookup.antt
old:         others_allowed = others_allowed_there;
new:         others_allowed = tt;
file: crates/concessions/proofs/Lookup.antt
old:         others_allowed = others_allowed_behind;
new:         others_allowed = tt;
