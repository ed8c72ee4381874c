# WithinCent, below: ≤ for <
crates: year
file: crates/year/specs/Defaults.antt
old: pub below : (rise *ℤ pos whole) <ℤ (pos (amount * demand) +ℤ pos whole)
new: pub below : (rise *ℤ pos whole) ≤ℤ (pos (amount * demand) +ℤ pos whole)
file: crates/year/specs/Defaults.antt
old: neg_ℤ, ◌<ℤ◌,
new: neg_ℤ, ◌<ℤ◌, ◌≤ℤ◌,
