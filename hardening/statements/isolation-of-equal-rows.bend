# Alike: two posts with the same rows of all coordinators only
crates: year
file: crates/year/specs/Isolation.antt
old: own_rows coordinator (rows sheet) ≡ own_rows coordinator (rows sheet') →
new: rows sheet ≡ rows sheet' →
file: crates/year/proofs/Isolation.antt
old: (posts {m} {day} {rate} {sheet} {sheet'} e) = ap pos (same_line m rate (rows sheet) (rows sheet') k e)
new: (posts {m} {day} {rate} {sheet} {sheet'} e) = ap pos (same_line m rate (rows sheet) (rows sheet') k (ap (own_rows k) e))
