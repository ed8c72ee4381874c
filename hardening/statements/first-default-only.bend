# YearLaw, defaults: only where none was accepted before
crates: year
file: crates/year/specs/Year.antt
old: use Rattle.year.specs.Balances.{EachBalance}
new: use Rattle.charges.specs.Sums.{over}\nuse Rattle.year.specs.Balances.{EachBalance, unpaid_in}
file: crates/year/specs/Year.antt
old: pub defaults : (calls : List Call) (debtor unpaid : ℕ) → let
new: pub defaults : (calls : List Call) (debtor unpaid : ℕ) → ((k : ℕ) → over (accepted_calls (opened t) calls) (unpaid_in k) ≡ 0) → let
file: crates/year/proofs/Year.antt
old: defaults = λ cs debtor unpaid e.
new: defaults = λ cs debtor unpaid none e.
