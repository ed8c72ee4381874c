//! Numbers as arguments: in range, at the edge and beyond it.

use crate::journal::Journal;
use reference::book::{MOST_AMOUNT, MOST_BALANCE, MOST_CHARGE, MOST_RATE};
use reference::concessions::MOST_ALLOWANCE;

impl Journal {
    /// A number as a word, at times with leading zeros or a plus sign.
    pub fn figure(&mut self, value: i128) -> String {
        let odd = self.odd / 2;
        if !self.random.chance(odd) {
            return value.to_string();
        }
        let size = value.unsigned_abs();
        let zeros = "0".repeat(self.random.pick(&[0, 0, 1, 2, 30, 50]));
        let sign = if value < 0 {
            "-"
        } else {
            self.random.pick(&["", "+"])
        };
        format!("{sign}{zeros}{size}")
    }

    pub fn coordinator(&mut self) -> usize {
        let count = self.count();
        if count > 0 && self.random.chance(85) {
            return self.random.below(count);
        }
        let beyond = [count, count, count + 1, 0, 63, 64, 255, 256, 65_536, 1 << 32, 1 << 63];
        match self.random.below(12) {
            11 => usize::MAX,
            i => beyond[i],
        }
    }

    pub fn day(&mut self) -> u16 {
        if self.random.chance(70) {
            return self.random.pick(&self.days);
        }
        if self.random.chance(50) {
            return self.random.from_to(1, 366) as u16;
        }
        self.random.pick(&[0, 1, 2, 255, 256, 257, 365, 366, 366, 367, 622, u16::MAX])
    }

    pub fn rate(&mut self) -> u32 {
        match self.random.below(20) {
            0..=8 => self.random.pick(&[836, 2_899, 50, 2_700, 100]),
            9..=11 => self.random.from_to(0, 10_000) as u32,
            12..=14 => self.random.from_to(0, MOST_RATE.into()) as u32,
            15 => self.random.pick(&[0, 1, 2, 25, 49, 500, 5_000]),
            16 | 17 => MOST_RATE,
            18 => MOST_RATE + 1,
            _ => self.random.pick(&[MOST_RATE - 1, MOST_RATE + 1, 20_000_000, u32::MAX]),
        }
    }

    /// An amount that changes a market balance.
    pub fn adjustment(&mut self, coordinator: usize) -> i64 {
        let market = self.market(coordinator);
        let sign = self.random.pick(&[-1, 1]);
        let size = match self.random.below(12) {
            0 => 0,
            1 => 1,
            2 | 3 => self.random.from_to(1, 1_000),
            4 | 5 => self.random.from_to(1, MOST_AMOUNT),
            6 | 7 => MOST_AMOUNT,
            8 => MOST_AMOUNT + 1,
            9 => self.random.from_to(MOST_AMOUNT + 1, i64::MAX.into()),
            10 => return self.random.pick(&[i64::MIN, i64::MAX, i64::MIN + 1]),
            _ => market.abs(),
        };
        (sign * size) as i64
    }

    /// An amount of a payment on the market side.
    pub fn market_payment(&mut self, coordinator: usize) -> u64 {
        let market = self.market(coordinator);
        match self.random.below(10) {
            0 => 0,
            1 => 1,
            2 | 3 => self.random.from_to(1, 1_000) as u64,
            4 => self.random.from_to(1, MOST_AMOUNT) as u64,
            5 => MOST_AMOUNT as u64,
            6 => MOST_AMOUNT as u64 + 1,
            7 => self.random.pick(&[u64::MAX, 1 << 63, i64::MAX as u64, 2 * MOST_AMOUNT as u64]),
            _ => market.unsigned_abs() as u64,
        }
    }

    /// An amount taken from the RC side, `most` being the most that question 13 lets pass.
    pub fn rc_amount(&mut self, coordinator: usize, most: u64) -> u64 {
        let rc = self.rc(coordinator) as u64;
        match self.random.below(16) {
            0 => 0,
            1 => 1,
            2 => most,
            3 => most + 1,
            4 => self.random.pick(&[u64::MAX, 1 << 63, 2 * most, most - 1]),
            5 | 6 => rc,
            7 | 8 => rc + 1,
            9 => rc.saturating_sub(1),
            10 => rc / 2,
            _ if rc > 0 => self.random.from_to(1, rc.into()) as u64,
            _ => self.random.from_to(1, 1_000) as u64,
        }
    }

    /// Charge and minimum of an assessment.
    pub fn assessment(&mut self) -> (u64, u64) {
        let flagged = self.engine.book.flagged() as u64;
        let charge = match self.random.below(14) {
            0 => 0,
            1 => 1,
            2 | 3 => 1_000,
            4 | 5 => MOST_CHARGE,
            6 => MOST_CHARGE + 1,
            7 => self.random.pick(&[u64::MAX, 1 << 63, MOST_CHARGE - 1]),
            8 | 9 => self.random.from_to(0, 100) as u64,
            _ => self.random.from_to(0, MOST_CHARGE.into()) as u64,
        };
        let whole = charge / flagged.max(1);
        let minimum = match self.random.below(14) {
            0 | 1 => 0,
            2 => 1,
            3 | 4 => whole,
            5 => whole.saturating_add(1),
            6 => MOST_CHARGE,
            7 => self.random.pick(&[MOST_CHARGE + 1, u64::MAX, u64::MAX / 2 + 1, 1 << 63, 1 << 62]),
            8 => whole / 2,
            9 => 100,
            _ => self.random.from_to(0, i128::from(whole).min(MOST_CHARGE.into())) as u64,
        };
        (charge, minimum)
    }

    pub fn percent(&mut self) -> u8 {
        let any = self.random.from_to(0, 100) as u8;
        self.random.pick(&[0, 1, 33, 50, 67, 95, 99, 100, 100, 101, 255, any, any, any, any])
    }

    pub fn mark(&mut self) -> u8 {
        self.random.pick(&[0, 0, 0, 1, 1, 1, 1, 2, 255])
    }

    pub fn allowance(&mut self) -> u64 {
        match self.random.below(12) {
            0 => 0,
            1 => self.random.pick(&[1, 99, 100, 101]),
            2 => MOST_ALLOWANCE,
            3 => MOST_ALLOWANCE + 1,
            4 => self.random.pick(&[u64::MAX, 1 << 63, MOST_ALLOWANCE - 1]),
            5 => self.random.from_to(0, MOST_ALLOWANCE.into()) as u64,
            6 | 7 => 100 * self.random.from_to(0, 4_000_000) as u64,
            8 => self.random.from_to(0, 1_000) as u64,
            _ => self.random.from_to(0, 400_000_000) as u64,
        }
    }

    /// What the coordinator's market balance can still rise or fall by.
    pub fn room(&self, coordinator: usize, sign: i128) -> i128 {
        MOST_BALANCE - sign * self.market(coordinator)
    }
}
