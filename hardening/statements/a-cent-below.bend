# WithinCent, above: ≤ for <
crates: year
file: crates/year/specs/Defaults.antt
old: pub above : (pos (amount * demand) -ℤ pos whole) <ℤ (rise *ℤ pos whole)
new: pub above : (pos (amount * demand) -ℤ pos whole) ≤ℤ (rise *ℤ pos whole)
file: crates/year/specs/Defaults.antt
old: neg_ℤ, ◌<ℤ◌,
new: neg_ℤ, ◌<ℤ◌, ◌≤ℤ◌,
