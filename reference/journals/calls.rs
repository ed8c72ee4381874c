//! One random call of each command, as words.

use crate::damage::damaged;
use crate::journal::Journal;
use crate::sheets::{encode, Rows};
use reference::book::{MOST_AMOUNT, MOST_CHARGE, MOST_DEMAND};
use reference::charges::{Charge, CHARGES};

#[derive(Clone, Copy)]
pub enum Call {
    Check,
    Open,
    Post,
    Quote,
    Adjust,
    PayMarket,
    PayRc,
    Assess,
    Default,
    Balances,
    Totals,
    Exclusion,
    RampIn,
    Grandfathering,
}

pub fn words(of: &[&str]) -> Vec<String> {
    of.iter().map(|word| word.to_string()).collect()
}

impl Journal {
    pub fn call(&mut self, call: Call) -> Vec<String> {
        match call {
            Call::Check => {
                let (_, charge) = self.random.pick(&CHARGES);
                words(&["check", &self.sheet(charge, 60)])
            }
            Call::Open => self.open(),
            Call::Post => {
                let (name, charge) = self.random.pick(&CHARGES);
                let (day, rate) = (self.day(), self.rate());
                let (day, rate) = (self.figure(day.into()), self.figure(rate.into()));
                words(&["post", name, &day, &rate, &self.sheet(charge, 15)])
            }
            Call::Quote => {
                let (name, charge) = self.random.pick(&CHARGES);
                let rows = self.rows_for(charge);
                let who = if !rows.is_empty() && self.random.chance(60) {
                    self.random.pick(&rows).0[0].into()
                } else {
                    self.coordinator()
                };
                let rate = self.rate();
                let (who, rate) = (self.figure(who as i128), self.figure(rate.into()));
                words(&["quote", name, &who, &rate, &self.sheet_of(rows, 12)])
            }
            Call::Adjust => {
                let who = self.coordinator();
                let cents = self.adjustment(who);
                words(&["adjust", &self.figure(who as i128), &self.figure(cents.into())])
            }
            Call::PayMarket => {
                let who = self.coordinator();
                let cents = self.market_payment(who);
                words(&["pay", "market", &self.figure(who as i128), &self.figure(cents.into())])
            }
            Call::PayRc => {
                let who = self.debtor();
                let cents = self.rc_amount(who, MOST_AMOUNT as u64);
                words(&["pay", "rc", &self.figure(who as i128), &self.figure(cents.into())])
            }
            Call::Assess => {
                let (charge, minimum) = self.assessment();
                words(&["assess", &self.figure(charge.into()), &self.figure(minimum.into())])
            }
            Call::Default => {
                let who = self.debtor();
                let cents = self.rc_amount(who, MOST_CHARGE);
                words(&["default", &self.figure(who as i128), &self.figure(cents.into())])
            }
            Call::Balances => {
                let who = self.coordinator();
                words(&["balances", &self.figure(who as i128)])
            }
            Call::Totals => words(&["totals"]),
            Call::Exclusion => {
                let table = self.random.pick(&["market-services", "system-operations"]);
                let (who, mark) = (self.entry_coordinator(), self.mark());
                words(&["exclusion", table, &self.figure(who as i128), &self.figure(mark.into())])
            }
            Call::RampIn => {
                let (who, percent) = (self.entry_coordinator(), self.percent());
                words(&["ramp-in", &self.figure(who as i128), &self.figure(percent.into())])
            }
            Call::Grandfathering => {
                let (who, allowance) = (self.entry_coordinator(), self.allowance());
                let any = self.random.below(256) as u8;
                let resource = self.random.pick(&[0, 1, 7, 254, 255, any]);
                self.grandfathering(who, resource, allowance)
            }
        }
    }

    pub fn grandfathering(&mut self, who: usize, resource: u8, allowance: u64) -> Vec<String> {
        let who = self.figure(who as i128);
        let (resource, allowance) = (self.figure(resource.into()), self.figure(allowance.into()));
        words(&["grandfathering", &who, &resource, &allowance])
    }

    /// A sheet for the charge; so many percent of them are damaged.
    pub fn sheet(&mut self, charge: Charge, percent: usize) -> String {
        let rows = self.rows_for(charge);
        self.sheet_of(rows, percent)
    }

    fn sheet_of(&mut self, rows: Rows, percent: usize) -> String {
        let bytes = if self.random.chance(percent) {
            damaged(&mut self.random, rows)
        } else {
            encode(&rows)
        };
        self.sheet_word(&bytes)
    }

    /// Mostly a coordinator that owes something on the RC side.
    pub fn debtor(&mut self) -> usize {
        let owing: Vec<usize> = (0..self.count()).filter(|who| self.rc(*who) > 0).collect();
        if !owing.is_empty() && self.random.chance(75) {
            return self.random.pick(&owing);
        }
        self.coordinator()
    }

    fn entry_coordinator(&mut self) -> usize {
        let beyond = self.random.pick(&[63, 64, 64, 65, 255, 256, 1 << 32, usize::MAX]);
        let any = self.random.below(64);
        let own = self.random.below(self.count().max(1));
        self.random.weighted(&[(8, own), (1, any), (1, beyond)])
    }

    pub fn open(&mut self) -> Vec<String> {
        let any = self.random.from_to(1, 64) as usize;
        let count = self.random.weighted(&[(10, 1), (15, 2), (40, 3), (20, 5), (10, any), (2, 64)]);
        self.open_of(count)
    }

    pub fn open_of(&mut self, count: usize) -> Vec<String> {
        let (mut demands, mut flags) = self.members(count);
        match self.random.below(100) {
            0..=2 => {
                // Too many, or none.
                let size = self.random.pick(&[0, 0, 65, 65, 66, 128, 300]);
                (demands, flags) = self.members(size);
            }
            3..=5 => {
                // Not equally many.
                let (short, long) = (self.random.below(count), count + 1);
                flags.resize(self.random.pick(&[short, long, 0]), 0);
            }
            6..=12 => {
                for _ in 0..self.random.pick(&[1, 1, 2]) {
                    let at = self.random.below(count);
                    match self.random.below(4) {
                        0 => demands[at] = self.random.pick(&[MOST_DEMAND + 1, u32::MAX]),
                        1 => flags[at] = self.random.pick(&[2, 3, 128, 255]),
                        2 => (demands[at], flags[at]) = (1, 1),
                        _ => (demands[at], flags[at]) = (self.random.below(2) as u32, 1),
                    }
                }
            }
            _ => (),
        }
        let (demands, flags) = (self.list(&demands), self.list(&flags));
        words(&["open", &demands, &flags])
    }

    fn list<T: Copy + Into<i128>>(&mut self, of: &[T]) -> String {
        if of.is_empty() {
            return "-".to_string();
        }
        of.iter().map(|value| self.figure((*value).into())).collect::<Vec<_>>().join(",")
    }

    /// Demands and flags of a book that is accepted.
    fn members(&mut self, count: usize) -> (Vec<u32>, Vec<u8>) {
        let manner = self.random.below(8);
        let alone = self.random.below(count.max(1));
        let flagged = self.random.pick(&[0, 0, 20, 50, 100]);
        let (mut demands, mut flags) = (Vec::new(), Vec::new());
        for who in 0..count {
            let demand = match manner {
                0 | 1 => 1,
                2 => self.random.below(4) as u32,
                3 => MOST_DEMAND,
                4 => u32::from(who == alone) * self.random.pick(&[1, 5, MOST_DEMAND]),
                5 => self.random.pick(&[0, 1, 3, 7, MOST_DEMAND, MOST_DEMAND - 1]),
                _ => self.random.below(50_000_001) as u32,
            };
            let flag = self.random.chance(if demand == 0 { flagged } else { flagged / 3 });
            demands.push(if flag { 0 } else { demand });
            flags.push(u8::from(flag));
        }
        (demands, flags)
    }
}
