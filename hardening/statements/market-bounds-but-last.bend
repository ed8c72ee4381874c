# YearLaw, market_bounds: of all coordinators but the last
crates: year
file: crates/year/specs/Year.antt
old: use Rattle.std.specs.Prelude.{◌≡◌, ℕ, ◌<◌,
new: use Rattle.std.specs.Prelude.{◌≡◌, ℕ, ◌-◌, ◌<◌,
file: crates/year/specs/Year.antt
old: → MarketBounded (count t) (after t calls).market
new: → MarketBounded (count t - 1) ((after t calls).market)
file: crates/year/proofs/Year.antt
old: market_bounds = λ cs. bounds_in t o (after t cs) (sound_after t o cs);
new: market_bounds = λ cs k w. bounds_in t o (after t cs) (sound_after t o cs) k (omega arith);
