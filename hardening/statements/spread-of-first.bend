# SpreadLaw, floors: of the first share only
crates: year
file: crates/year/specs/Spread.antt
old: pub floors : (k : ℕ) → k < length weights
new: pub floors : (k : ℕ) → k ≡ 0 → k < length weights
file: crates/year/proofs/Spread.antt
old:   floors = floors u ws;
new:   floors = λ k first. floors u ws k;
