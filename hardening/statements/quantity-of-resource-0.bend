# tell_quantity: of resource 0 only
crates: charges
file: crates/charges/src/rule.rt
old: result ≡ quantity self.now pair.coordinator pair.resource (pair_rows pair.coordinator pair.resource (sheet_rows sheet.entry))
new: pair.resource ≡ 0 → result ≡ quantity self.now pair.coordinator pair.resource (pair_rows pair.coordinator pair.resource (sheet_rows sheet.entry))
file: crates/charges/proofs/trade_fee/TradeFeeChargeRule/tell_quantity/Answers.antt
old: returns c =
new: returns c only =
file: crates/charges/proofs/bid_segment/BidSegmentChargeRule/tell_quantity/Answers.antt
old: returns c =
new: returns c only =
file: crates/charges/proofs/system_operations/SystemOperationsChargeRule/tell_quantity/Answers.antt
old: returns c =
new: returns c only =
file: crates/charges/proofs/tor/TorChargeRule/tell_quantity/Answers.antt
old: returns c =
new: returns c only =
file: crates/charges/proofs/market_services/MarketServicesChargeRule/tell_quantity/Answers.antt
old: returns c =
new: returns c only =
file: crates/charges/proofs/tor/TorChargeRule/tell_quantity/Answers.antt
old: returns-then-pair-ne0 c =
new: returns-then-pair-ne0 c only =
