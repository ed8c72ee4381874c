# keep_year, law: dropped
crates: journal
edit: hardening/journal/year-forgotten.edit
file: crates/journal/src/kept_year.rt
old: Kept (open_refusal (given terms.entry)) (given terms.entry) (map (call_of R.code R.quantity) entries.now) (book_of book.old) (book_of book.new)
new: Unit {0}
file: crates/journal/proofs/kept_year/keep_year/Answers.antt
old: law = kept_refused t calls (book_of c.args.book.now) _ refused _ c.in_err-open_year.ensures.law;
new: law = tt;
file: crates/journal/proofs/kept_year/keep_year/Answers.antt
old: law = kept_opening t calls (book_of c.args.book.now) ok _ _ o.law c.enter_all.ensures.law;
new: law = tt;
