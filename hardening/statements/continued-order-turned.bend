# Continued: the calls before those that came earlier (false)
crates: journal
file: crates/journal/specs/Kept.antt
old: KeptYear t (earlier ++ calls) now
new: KeptYear t (calls ++ earlier) now
