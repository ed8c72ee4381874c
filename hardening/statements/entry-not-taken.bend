# enter, taken: dropped
crates: journal
file: crates/journal/src/kept_year.rt
old: ensures taken { EntryTaken book.old (call_of R.code R.quantity entry.now) book.new result }
new: ensures taken { Unit {0} }
file: crates/journal/proofs/kept_year/enter/Answers.antt
old: taken = c.call.ensures.called;
new: taken = tt;
