# DefaultLaw, proportion: by the demands of all, the debtor among them (false)
crates: year
file: crates/year/specs/Defaults.antt
old: (total (others debtor t.demands))
new: (total t.demands)
