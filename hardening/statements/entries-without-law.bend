# enter_all, law: dropped
crates: journal
file: crates/journal/src/kept_year.rt
old: Continued (book_of book.old) (map (call_of R.code R.quantity) entries.now) (book_of book.new)
new: Unit {0}
file: crates/journal/proofs/kept_year/enter_all/Answers.antt
old: law = continued _ _ _ t.0 }
new: law = tt }
