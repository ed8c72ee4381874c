# quote: only whether the call is refused
crates: engine
file: crates/yearbook/src/book/posting.rt
old: told book_fault result ≡ answer (quote_refusal (book_of self.now) rate bytes.now coordinator) (quoting (meaning (R.code rule.now) (R.quantity rule.now)) rate bytes.now coordinator)
new: is_ok result ≡ is_ok (answer (quote_refusal (book_of self.now) rate bytes.now coordinator) (quoting (meaning (R.code rule.now) (R.quantity rule.now)) rate bytes.now coordinator))
file: crates/yearbook/src/book/posting.rt
old: ghost use Rattle.std.specs.Prelude.{◌≡◌, ◌<◌, true, length,
new: ghost use Rattle.std.specs.Prelude.{◌≡◌, is_ok, ◌<◌, true, length,
file: crates/yearbook/proofs/book/YearBook/quote/Answers.antt
old:     refused_answer _ _ _ (quote_8 s c.args.rate c.args.bytes.now c.args.coordinator (omega arith))
new:     rw (quote_8 s c.args.rate c.args.bytes.now c.args.coordinator (omega arith))
file: crates/yearbook/proofs/book/YearBook/quote/Answers.antt
old: rw (p.1, p.2) (refused_answer _ _ _ (quote_sheet
new: rw p.1 (rw (quote_sheet
file: crates/yearbook/proofs/book/YearBook/quote/Answers.antt
old: rw (p.1, p.2) (refused_answer _ _ _ (quote_9
new: rw p.1 (rw (quote_9
file: crates/yearbook/proofs/book/YearBook/quote/Answers.antt
old: rw (p.1, p.2, m.0) (refused_answer _ _ _ (quote_12
new: rw p.1 (rw (quote_12
file: crates/yearbook/proofs/book/YearBook/quote/Answers.antt
old:     accepted_answer _ _ _ (quote_none
new:     rw (quote_none
file: crates/yearbook/proofs/book/YearBook/quote/Answers.antt
old:     (ap₂ (λ (x y : ℕ). (x, y)) q (c.line_at.ensures.value ∙ ap (λ x. line x c.args.rate) q))
new:     refl
file: crates/yearbook/proofs/book/YearBook/quote/Answers.antt
old: use Rattle.std.proofs.Common.{◌≡◌, ℕ, sym, ap,
new: use Rattle.std.proofs.Common.{◌≡◌, ℕ, sym, refl, ap,
