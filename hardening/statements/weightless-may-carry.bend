# SpreadLaw, weightless: dropped
crates: year
file: crates/year/specs/Spread.antt
old: pub weightless : (k : ℕ) → slice_index weights k ≡ 0 → slice_index (spread amount weights) k ≡ 0
new: pub weightless : Unit {0}
file: crates/year/proofs/Spread.antt
old:   weightless = weightless u ws;
new:   weightless = tt;
