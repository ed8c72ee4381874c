# ProductsFit: nothing of an assessment
crates: year
file: crates/year/specs/Amounts.antt
old: ProductsFit t (assess charge minimum) = Fits (rest t charge minimum) t.demands
new: ProductsFit t (assess charge minimum) = Unit {0}
file: crates/year/proofs/Rc.antt
old:     fits (rest t charge minimum) t.demands (omega arith) o.demands_bound
new:     tt
