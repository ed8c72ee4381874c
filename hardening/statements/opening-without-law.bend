# open_year, law: dropped
crates: journal
file: crates/journal/src/kept_year.rt
old: Kept (open_refusal (given terms.entry)) (given terms.entry) [] (book_of book.old) (book_of book.new)
new: Unit {0}
file: crates/journal/proofs/kept_year/open_year/Answers.antt
old: law = kept_by_opening t (book_of c.args.book.now) _ c.open.ensures.left }
new: law = tt }
