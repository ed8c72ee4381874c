# SpreadLaw, above: ≤ for <
crates: year
file: crates/year/specs/Spread.antt
old: → amount * slice_index weights k < slice_index (spread amount weights) k * total weights + total weights
new: → amount * slice_index weights k ≤ slice_index (spread amount weights) k * total weights + total weights
file: crates/year/specs/Spread.antt
old: ◌/◌, ◌<◌,
new: ◌/◌, ◌<◌, ◌≤◌,
file: crates/year/proofs/Spread.antt
old: above = λ k h p. (near u ws k h p).0;
new: above = λ k h p. let n = (near u ws k h p).0 in omega arith;
