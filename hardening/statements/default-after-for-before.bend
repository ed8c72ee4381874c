# YearLaw, defaults: the balances before and after changed about (false)
crates: year
file: crates/year/specs/Year.antt
old: DefaultLaw t debtor unpaid (after t calls).rc.balances (step (after t calls) call).rc.balances
new: DefaultLaw t debtor unpaid (step (after t calls) call).rc.balances (after t calls).rc.balances
