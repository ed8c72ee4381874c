//! The year book: balances of both sides, what is posted and what is assessed.

use crate::charges::{line, Pair};
use crate::refusal::{ask, ask_at, ask_each, Refusal};
use crate::sheet::Row;
use std::collections::{BTreeMap, BTreeSet};

pub const MOST_RATE: u32 = 10_000_000;
pub const MOST_DEMAND: u32 = 50_000_000;
pub const MOST_AMOUNT: i128 = 1_000_000_000_000;
pub const MOST_BALANCE: i128 = 1_000_000_000_000_000;
pub const MOST_CHARGE: u64 = 2_000_000_000;

#[derive(Clone, Default)]
pub struct Book {
    demands: Vec<u32>,
    flags: Vec<u8>,
    market: Vec<i128>,
    rc: Vec<i128>,
    /// Codes and days.
    posted: BTreeSet<(u8, u16)>,
    assessed: Option<u64>,
}

/// The shares of an amount spread over weights.
pub fn spread(amount: i128, weights: &[i128]) -> Vec<i128> {
    let whole: i128 = weights.iter().sum();
    if whole == 0 {
        return vec![0; weights.len()];
    }
    let upto = |k: usize| (amount * weights[..k].iter().sum::<i128>()).div_euclid(whole);
    (0..weights.len()).map(|k| upto(k + 1) - upto(k)).collect()
}

fn in_bounds(balance: i128) -> bool {
    (-MOST_BALANCE..=MOST_BALANCE).contains(&balance)
}

/// Adds two lists place by place.
fn plus(left: &[i128], right: &[i128]) -> Vec<i128> {
    left.iter().zip(right).map(|(l, r)| l + r).collect()
}

impl Book {
    pub fn count(&self) -> usize {
        self.demands.len()
    }

    pub fn demands(&self) -> &[u32] {
        &self.demands
    }

    pub fn flagged(&self) -> usize {
        self.flags.iter().filter(|flag| **flag == 1).count()
    }

    pub fn is_assessed(&self) -> bool {
        self.assessed.is_some()
    }

    pub fn open(&mut self, demands: &[u32], flags: &[u8]) -> Result<usize, Refusal> {
        ask(6, demands.len() == flags.len() && (1..=64).contains(&demands.len()))?;
        ask_each(7, demands.iter().zip(flags), |(&demand, &flag)| {
            demand <= MOST_DEMAND && flag <= 1 && (flag == 0 || demand == 0)
        })?;
        *self = Book {
            demands: demands.to_vec(),
            flags: flags.to_vec(),
            market: vec![0; demands.len()],
            rc: vec![0; demands.len()],
            posted: BTreeSet::new(),
            assessed: None,
        };
        Ok(demands.len())
    }

    /// Question 9: every row's coordinator is in the book.
    pub fn knows(&self, rows: &[Row]) -> Result<(), Refusal> {
        ask_each(9, rows, |row| usize::from(row.coordinator) < self.count())
    }

    /// A coordinator's quantity: the sum over its resources.
    fn quantity_of(coordinator: usize, quantities: &BTreeMap<Pair, i128>) -> i128 {
        let own = quantities.iter().filter(|((who, _), _)| usize::from(*who) == coordinator);
        own.map(|(_, quantity)| quantity).sum()
    }

    /// Questions 10 and 11 of a post, and its effect.
    pub fn post(
        &mut self,
        code: u8,
        day: u16,
        rate: u32,
        quantities: &BTreeMap<Pair, i128>,
    ) -> Result<i128, Refusal> {
        ask(10, !self.posted.contains(&(code, day)))?;
        let lines: Vec<i128> =
            (0..self.count()).map(|who| line(Self::quantity_of(who, quantities), rate)).collect();
        let market = plus(&self.market, &lines);
        ask_each(11, &market, |balance| in_bounds(*balance))?;
        self.market = market;
        self.posted.insert((code, day));
        Ok(lines.iter().sum())
    }

    /// Question 12 of a quote, and its answer.
    pub fn quote(
        &self,
        coordinator: usize,
        rate: u32,
        quantities: &BTreeMap<Pair, i128>,
    ) -> Result<(i128, i128), Refusal> {
        self.has(coordinator)?;
        let quantity = Self::quantity_of(coordinator, quantities);
        Ok((quantity, line(quantity, rate)))
    }

    fn has(&self, coordinator: usize) -> Result<(), Refusal> {
        ask(12, coordinator < self.count())
    }

    fn move_market(&mut self, coordinator: usize, by: i128) -> Result<(), Refusal> {
        let after = self.market[coordinator] + by;
        ask_at(11, coordinator, in_bounds(after))?;
        self.market[coordinator] = after;
        Ok(())
    }

    pub fn adjust(&mut self, coordinator: usize, cents: i64) -> Result<(), Refusal> {
        self.has(coordinator)?;
        ask(13, i128::from(cents).abs() <= MOST_AMOUNT)?;
        self.move_market(coordinator, cents.into())
    }

    pub fn pay_market(&mut self, coordinator: usize, cents: u64) -> Result<(), Refusal> {
        self.has(coordinator)?;
        ask(13, (1..=MOST_AMOUNT).contains(&cents.into()))?;
        self.move_market(coordinator, -i128::from(cents))
    }

    pub fn pay_rc(&mut self, coordinator: usize, cents: u64) -> Result<(), Refusal> {
        self.has(coordinator)?;
        ask(13, (1..=MOST_AMOUNT).contains(&cents.into()))?;
        ask(14, i128::from(cents) <= self.rc[coordinator])?;
        self.rc[coordinator] -= i128::from(cents);
        Ok(())
    }

    pub fn assess(&mut self, charge: u64, minimum: u64) -> Result<(), Refusal> {
        ask(15, self.assessed.is_none())?;
        let minimums = i128::from(minimum) * self.flagged() as i128;
        let rest = i128::from(charge) - minimums;
        ask(16, charge <= MOST_CHARGE && minimum <= MOST_CHARGE && rest >= 0)?;
        let weights: Vec<i128> = self.demands.iter().map(|demand| i128::from(*demand)).collect();
        ask(17, rest == 0 || weights.iter().any(|weight| *weight > 0))?;
        let least: Vec<i128> =
            self.flags.iter().map(|flag| i128::from(*flag) * i128::from(minimum)).collect();
        self.rc = plus(&self.rc, &plus(&least, &spread(rest, &weights)));
        self.assessed = Some(charge);
        Ok(())
    }

    pub fn default_on(&mut self, debtor: usize, cents: u64) -> Result<(), Refusal> {
        self.has(debtor)?;
        ask(13, (1..=MOST_CHARGE).contains(&cents))?;
        let unpaid = i128::from(cents);
        ask(14, unpaid <= self.rc[debtor])?;
        let mut weights: Vec<i128> =
            self.demands.iter().map(|demand| i128::from(*demand)).collect();
        weights[debtor] = 0;
        ask(17, weights.iter().any(|weight| *weight > 0))?;
        self.rc[debtor] -= unpaid;
        self.rc = plus(&self.rc, &spread(unpaid, &weights));
        Ok(())
    }

    pub fn balances(&self, coordinator: usize) -> Result<(i128, i128), Refusal> {
        self.has(coordinator)?;
        Ok((self.market[coordinator], self.rc[coordinator]))
    }

    pub fn totals(&self) -> (i128, i128) {
        (self.market.iter().sum(), self.rc.iter().sum())
    }
}
