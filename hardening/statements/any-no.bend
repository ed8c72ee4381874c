# FirstNo and FirstAskedNo: some question answered no, not the first
crates: sheet
file: crates/sheet/specs/FirstNo.antt
old: = (q : Question) × (refusal ≡ no_to q) × (Yes bytes q → ⊥) × ((p : Question) → turn p < turn q → Yes bytes p)
new: = (q : Question) × (refusal ≡ no_to q) × (Yes bytes q → ⊥) × Unit {0}
file: crates/sheet/specs/FirstNo.antt
old: row_count bytes) × (refusal ≡ no_to q) × (Yes bytes q → ⊥) × ((p : Question) → turn p < turn q → Yes bytes p)
new: row_count bytes) × (refusal ≡ no_to q) × (Yes bytes q → ⊥) × Unit {0}
file: crates/sheet/proofs/FirstNo.antt
old: le-leb _ _ y), ranged_too i e (above_yes bytes i up) inside)))
new: le-leb _ _ y), tt)))
file: crates/sheet/proofs/FirstNo.antt
old: both_ways _ out, above_too i e (above_yes bytes i up))))
new: both_ways _ out, tt)))
file: crates/sheet/proofs/FirstNo.antt
old: above_no bytes i low, before i e))
new: above_no bytes i low, tt))
file: crates/sheet/proofs/FirstNo.antt
old: (eq-eqb _ _ y)), only_first bytes one)))
new: (eq-eqb _ _ y)), tt)))
file: crates/sheet/proofs/FirstNo.antt
old: (Counted, omega arith, p.0, p.1, λ p h. absurd (omega arith))
new: (Counted, omega arith, p.0, p.1, tt)
