# FirstNo and FirstAskedNo: the place left out of the refusal
crates: sheet
file: crates/sheet/specs/FirstNo.antt
old: = (q : Question) × (refusal ≡ no_to q) ×
new: = (q : Question) × (refusal.question ≡ (no_to q).question) ×
file: crates/sheet/specs/FirstNo.antt
old: row_count bytes) × (refusal ≡ no_to q) ×
new: row_count bytes) × (refusal.question ≡ (no_to q).question) ×
file: crates/sheet/proofs/FirstNo.antt
old: at_5 i (previous_key bytes i) (row_at bytes i) r refused up inside large,
new: ap (λ (x : Refusal). x.question) (at_5 i (previous_key bytes i) (row_at bytes i) r refused up inside large),
file: crates/sheet/proofs/FirstNo.antt
old: at_4 i (previous_key bytes i) (row_at bytes i) r refused up out,
new: ap (λ (x : Refusal). x.question) (at_4 i (previous_key bytes i) (row_at bytes i) r refused up out),
file: crates/sheet/proofs/FirstNo.antt
old: at_3 i (previous_key bytes i) (row_at bytes i) r refused low,
new: ap (λ (x : Refusal). x.question) (at_3 i (previous_key bytes i) (row_at bytes i) r refused low),
file: crates/sheet/proofs/FirstNo.antt
old: (Counted, omega arith, p.0, p.1,
new: (Counted, omega arith, ap (λ (x : Refusal). x.question) p.0, p.1,
