# Taken, answered: only whether the call is refused
crates: journal
file: crates/yearbook/specs/Taken.antt
old: pub answered : said ≡ answer (refusal before call) value
new: pub answered : is_ok said ≡ is_ok (answer (refusal before call) value)
file: crates/yearbook/specs/Taken.antt
old: {◌≡◌, ℕ, List, None,
new: {◌≡◌, ℕ, is_ok, List, None,
file: crates/yearbook/proofs/Taken.antt
old: taken_last b call value b' o said e a w = record { answered = rw e a; left = rw e w }
new: taken_last b call value b' o said e a w = record { answered = rw (e, a); left = rw e w }
