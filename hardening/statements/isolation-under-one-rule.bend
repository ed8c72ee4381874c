# Alike: posts of one code only
crates: year
file: crates/year/specs/Isolation.antt
old: {sheet sheet' : List ℕ} → own_rows
new: {sheet sheet' : List ℕ} → m.code ≡ 4 → own_rows
file: crates/year/proofs/Isolation.antt
old: (posts {m} {day} {rate} {sheet} {sheet'} e)
new: (posts {m} {day} {rate} {sheet} {sheet'} one e)
