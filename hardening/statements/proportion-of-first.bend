# DefaultLaw, proportion: of coordinator 0 only
crates: year
file: crates/year/specs/Defaults.antt
old: pub proportion : (coordinator : ℕ) → coordinator < count t →
new: pub proportion : (coordinator : ℕ) → coordinator ≡ 0 → coordinator < count t →
file: crates/year/proofs/Defaults.antt
old: proportion = λ k w n.
new: proportion = λ k first w n.
