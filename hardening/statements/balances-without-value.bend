# balances: only whether the call is refused
crates: engine
file: crates/yearbook/src/book/reading.rt
old: told book_fault result ≡ answer (balances_refusal (book_of self.now) coordinator) (balances_of (book_of self.now) coordinator)
new: is_ok result ≡ is_ok (answer (balances_refusal (book_of self.now) coordinator) (balances_of (book_of self.now) coordinator))
file: crates/yearbook/src/book/reading.rt
old: ghost use Rattle.std.specs.Prelude.{◌≡◌, ◌<◌,
new: ghost use Rattle.std.specs.Prelude.{◌≡◌, is_ok, ◌<◌,
file: crates/yearbook/src/book/reading.rt
old: ghost use Rattle.questions.specs.Questions.{answer, told};
new: ghost use Rattle.questions.specs.Questions.{answer};
file: crates/yearbook/src/book/reading.rt
old: ghost use Rattle.yearbook.specs.Faults.{book_fault};
new: 
file: crates/yearbook/proofs/book/YearBook/balances/Answers.antt
old:     rw (p.1, p.2, m.0, balances_12 c.args.self.now c.args.coordinator m.1)
new:     rw (p.1, balances_12 c.args.self.now c.args.coordinator m.1)
file: crates/yearbook/proofs/book/YearBook/balances/Answers.antt
old:     ap (answer None) (ap₂ (λ (m : ℤ) (r : ℕ). (m, r)) (to_z-of_z w64 z fits ∙ ap market_of h.1 ∙ sym (market_is s k h.0)) (ap rc_of h.1 ∙ sym (rc_is s k h.0)))
new: 
file: crates/yearbook/proofs/book/YearBook/balances/Answers.antt
old:     ∙ ap (λ o. answer o (balances (book_of s) k)) (sym (balances_none s k h.0))
new:     rw (balances_none s k h.0)
