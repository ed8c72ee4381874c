# Fits: of the sums of fewer than all weights
crates: year
file: crates/year/specs/Amounts.antt
old: Fits amount weights = (k : ℕ) → amount
new: Fits amount weights = (k : ℕ) → k < length weights → amount
file: crates/year/specs/Amounts.antt
old: [], ◌∷◌, take,
new: [], ◌∷◌, length, take,
file: crates/year/proofs/Rc.antt
old:     fits (rest t charge minimum) t.demands (omega arith) o.demands_bound
new:     λ k w. fits (rest t charge minimum) t.demands (omega arith) o.demands_bound k w
file: crates/year/proofs/Rc.antt
old:     fits unpaid (carrier_weights t debtor) (omega arith) (weights_bound t debtor q.here o.demands_bound)
new:     λ k w. fits unpaid (carrier_weights t debtor) (omega arith) (weights_bound t debtor q.here o.demands_bound) k w
