# FirstAskedNo: a question of a row that the sheet has not
crates: sheet
file: crates/sheet/specs/FirstNo.antt
old: × (turn q < 2 + 3 * row_count bytes) ×
new: × Unit {0} ×
file: crates/sheet/proofs/FirstNo.antt
old: (λ large. (Bounded i, omega arith,
new: (λ large. (Bounded i, tt,
file: crates/sheet/proofs/FirstNo.antt
old: (λ out. (Ranged i, omega arith,
new: (λ out. (Ranged i, tt,
file: crates/sheet/proofs/FirstNo.antt
old: (λ low. (Above i, omega arith,
new: (λ low. (Above i, tt,
file: crates/sheet/proofs/FirstNo.antt
old: (Measured, omega arith, refl,
new: (Measured, tt, refl,
file: crates/sheet/proofs/FirstNo.antt
old: (Counted, omega arith, p.0,
new: (Counted, tt, p.0,
