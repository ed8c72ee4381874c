# FirstNo and FirstAskedNo: of an accepted sheet only the first row
crates: sheet
file: crates/sheet/specs/FirstNo.antt
old: turn q < 2 + 3 * n → Yes bytes q)
new: turn q < 2 + 3 * n → turn q < 5 → Yes bytes q)
file: crates/sheet/proofs/FirstNo.antt
old: (refl, before bytes one two (row_count bytes) all)
new: (refl, λ q h low. before bytes one two (row_count bytes) all q h)
