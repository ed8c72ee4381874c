# open, left: nothing of the book after a refusal
crates: journal
file: crates/yearbook/src/book/opening.rt
old: book_of self.new ≡ settled (open_refusal (terms_of terms.entry.demands.now terms.entry.flags.now)) (book_of self.old) (opened (terms_of terms.entry.demands.now terms.entry.flags.now))
new: open_refusal (terms_of terms.entry.demands.now terms.entry.flags.now) ≡ None → book_of self.new ≡ settled (open_refusal (terms_of terms.entry.demands.now terms.entry.flags.now)) (book_of self.old) (opened (terms_of terms.entry.demands.now terms.entry.flags.now))
file: crates/yearbook/src/book/opening.rt
old: ghost use Rattle.std.specs.Prelude.{◌≡◌, false, replicate};
new: ghost use Rattle.std.specs.Prelude.{◌≡◌, None, false, replicate};
file: crates/yearbook/proofs/book/YearBook/open/Answers.antt
old: left = refused_leaves _ tt _ _ _ e;
new: left = λ passed. refused_leaves _ tt _ _ _ e;
file: crates/yearbook/proofs/book/YearBook/open/Answers.antt
old: left = accepted_leaves _ _ _ _ ok
new: left = λ passed. accepted_leaves _ _ _ _ ok
