# set_mark: nothing of the table after a refusal
crates: concessions
file: crates/concessions/src/exclusion.rt
old: (λ _. self.new ≡ self.old)
new: (λ _. Unit {0})
