# Elsewhere: no call of the RC side
crates: year
file: crates/year/specs/Isolation.antt
old: Elsewhere coordinator (of_rc call) = Unit {0}
new: Elsewhere coordinator (of_rc call) = ⊥
