# ProductsFit: nothing of a default
crates: year
file: crates/year/specs/Amounts.antt
old: ProductsFit t (default debtor unpaid) = Fits unpaid (carrier_weights t debtor)
new: ProductsFit t (default debtor unpaid) = Unit {0}
file: crates/year/proofs/Rc.antt
old:     fits unpaid (carrier_weights t debtor) (omega arith) (weights_bound t debtor q.here o.demands_bound)
new:     tt
