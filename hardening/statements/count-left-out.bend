# FirstNo and FirstAskedNo: any count for an accepted sheet
crates: sheet
file: crates/sheet/specs/FirstNo.antt
old: FirstNo bytes (Ok n) = (n ≡ row_count bytes) ×
new: FirstNo bytes (Ok n) = Unit {0} ×
file: crates/sheet/specs/FirstNo.antt
old: turn q < 2 + 3 * n → Yes bytes q)
new: turn q < 2 + 3 * row_count bytes → Yes bytes q)
file: crates/sheet/proofs/FirstNo.antt
old: (refl, before bytes one two (row_count bytes) all)
new: (tt, before bytes one two (row_count bytes) all)
