# DefaultLaw, proportion: by the demand of the debtor (false)
crates: year
file: crates/year/specs/Defaults.antt
old: WithinCent unpaid (demand_at t coordinator)
new: WithinCent unpaid (demand_at t debtor)
