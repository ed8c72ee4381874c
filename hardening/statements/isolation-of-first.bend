# YearLaw, isolation: of coordinator 0 only
crates: year
file: crates/year/specs/Year.antt
old: pub isolation : (coordinator : ℕ) → coordinator < count t →
new: pub isolation : (coordinator : ℕ) → coordinator ≡ 0 → coordinator < count t →
file: crates/year/proofs/Year.antt
old: isolation = λ k w t'
new: isolation = λ k first w t'
