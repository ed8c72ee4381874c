# DefaultLaw, share: of coordinator 0 only
crates: year
file: crates/year/specs/Defaults.antt
old: pub share : (coordinator : ℕ) → coordinator < count t →
new: pub share : (coordinator : ℕ) → coordinator ≡ 0 → coordinator < count t →
file: crates/year/proofs/Defaults.antt
old: share = λ k w n. rise_other
new: share = λ k first w n. rise_other
