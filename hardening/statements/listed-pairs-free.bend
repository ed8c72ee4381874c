# Entered, others_listed: dropped
crates: concessions
file: crates/concessions/specs/Concessions.antt
old: pub others_listed : (c r : ℕ) → is_listed c r after ≡ ((coordinator == c && resource == r) || is_listed c r before)
new: pub others_listed : Unit {0}
file: crates/concessions/proofs/Lookup.antt
old:         others_listed = others_listed_there;
new:         others_listed = tt;
file: crates/concessions/proofs/Lookup.antt
old:         others_listed = others_listed_behind;
new:         others_listed = tt;
