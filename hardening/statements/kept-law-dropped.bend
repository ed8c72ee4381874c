# KeptYear, law: dropped
crates: journal
file: crates/journal/specs/Kept.antt
old: pub law : YearLaw t
new: pub law : Unit {0}
file: crates/journal/proofs/Kept.antt
old:       law = law;
new:       law = tt;
