# enter_all, answered: dropped
crates: journal
file: crates/journal/src/kept_year.rt
old: map (told book_fault) answers.new ≡ written (map (told book_fault) answers.old) (answers_to (book_of book.old) (map (call_of R.code R.quantity) entries.now))
new: Unit {0}
file: crates/journal/proofs/kept_year/enter_all/Answers.antt
old: answered = t.1;
new: answered = tt;
