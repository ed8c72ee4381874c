# SameOutcome: nothing where calls are refused
crates: year
file: crates/year/specs/Isolation.antt
old: SameOutcome coordinator refused refused = Unit {0}
new: SameOutcome coordinator refused refused = ⊥
