# Alike: two posts of one sheet only
crates: year
file: crates/year/specs/Isolation.antt
old: own_rows coordinator (rows sheet) ≡ own_rows coordinator (rows sheet') →
new: sheet ≡ sheet' →
file: crates/year/proofs/Isolation.antt
old: (posts {m} {day} {rate} {sheet} {sheet'} e) = ap pos (same_line m rate (rows sheet) (rows sheet') k e)
new: (posts {m} {day} {rate} {sheet} {sheet'} e) = ap pos (same_line m rate (rows sheet) (rows sheet') k (ap (λ s. own_rows k (rows s)) e))
