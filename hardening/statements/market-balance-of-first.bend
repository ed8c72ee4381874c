# EachBalance, market: of coordinator 0 only
crates: year
file: crates/year/specs/Balances.antt
old: pub market : (coordinator : ℕ) → coordinator < count t →
new: pub market : (coordinator : ℕ) → coordinator ≡ 0 → coordinator < count t →
file: crates/year/proofs/Year.antt
old: market = λ k w. market_each
new: market = λ k first w. market_each
