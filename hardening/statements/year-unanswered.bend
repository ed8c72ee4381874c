# keep_year, answered: dropped
crates: journal
edit: crates/journal/must-fail/answers-not-written.edit
file: crates/journal/src/kept_year.rt
old: map (told book_fault) answers.new ≡ written (map (told book_fault) answers.old) (year_answers (open_refusal (given terms.entry)) (given terms.entry) (map (call_of R.code R.quantity) entries.now))
new: Unit {0}
file: crates/journal/proofs/kept_year/keep_year/Answers.antt
old: answered = answers_refused t calls (book_of c.args.book.now) _ refused _;
new: answered = tt;
file: crates/journal/proofs/kept_year/keep_year/Answers.antt
old: answered = c.enter_all.ensures.answered ∙ ap (written _) (answers_opening t calls (book_of c.args.book.now) ok _ o.law);
new: answered = tt;
