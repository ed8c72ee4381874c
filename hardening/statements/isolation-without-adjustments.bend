# Elsewhere: no adjustment, not even of another coordinator
crates: year
file: crates/year/specs/Isolation.antt
old: Elsewhere coordinator (of_market (adjust who amount)) = who ≢ coordinator
new: Elsewhere coordinator (of_market (adjust who amount)) = ⊥
file: crates/year/proofs/Isolation.antt
old: still k (of_market (adjust who amount)) h = rw (ne_eqb who k h)
new: still k (of_market (adjust who amount)) h = absurd h
