# EachBalance, RC: of coordinator 0 only
crates: year
file: crates/year/specs/Balances.antt
old: pub rc : (coordinator : ℕ) → coordinator < count t →
new: pub rc : (coordinator : ℕ) → coordinator ≡ 0 → coordinator < count t →
file: crates/year/proofs/Year.antt
old: rc = λ k w. rc_each
new: rc = λ k first w. rc_each
