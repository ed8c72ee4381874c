# SpreadLaw, whole: at most the amount
crates: year
file: crates/year/specs/Spread.antt
old: → total (spread amount weights) ≡ amount
new: → total (spread amount weights) ≤ amount
file: crates/year/specs/Spread.antt
old: ◌/◌, ◌<◌,
new: ◌/◌, ◌<◌, ◌≤◌,
file: crates/year/proofs/Spread.antt
old:   whole = whole u ws;
new:   whole = λ h. let e = whole u ws h in omega arith;
