# YearLaw, balances: of a year of one call only
crates: year journal
file: crates/year/specs/Year.antt
old: pub balances : (calls : List Call) →
new: pub balances : (calls : List Call) → length calls ≡ 1 →
file: crates/year/proofs/Year.antt
old: balances = each_balance t o;
new: balances = λ cs one. each_balance t o cs;
