//! The concessions: four tables, and what they make of a sheet's charge quantities.

use crate::charges::{Charge, Pair};
use crate::refusal::{ask, Refusal};
use std::collections::{BTreeMap, BTreeSet};

pub const MOST_ALLOWANCE: u64 = 819_200_000_000;
pub const MOST_PAIRS: usize = 128;

#[derive(Clone, Default)]
pub struct Tables {
    /// Coordinators whose mark is 1.
    pub excluded_market: BTreeSet<usize>,
    pub excluded_system: BTreeSet<usize>,
    /// Percents; where none stands it is zero.
    pub percents: BTreeMap<usize, u8>,
    /// The listed pairs.
    pub allowances: BTreeMap<(usize, u8), u64>,
}

/// The exclusion tables.
#[derive(Clone, Copy, Debug, PartialEq, Eq)]
pub enum Table {
    MarketServices,
    SystemOperations,
}

impl Tables {
    pub fn enter_mark(
        &mut self,
        table: Table,
        coordinator: usize,
        mark: u8,
    ) -> Result<(), Refusal> {
        ask(18, coordinator < 64 && mark <= 1)?;
        let excluded = match table {
            Table::MarketServices => &mut self.excluded_market,
            Table::SystemOperations => &mut self.excluded_system,
        };
        if mark == 1 {
            excluded.insert(coordinator);
        } else {
            excluded.remove(&coordinator);
        }
        Ok(())
    }

    pub fn enter_percent(&mut self, coordinator: usize, percent: u8) -> Result<(), Refusal> {
        ask(18, coordinator < 64 && percent <= 100)?;
        self.percents.insert(coordinator, percent);
        Ok(())
    }

    pub fn enter_allowance(
        &mut self,
        coordinator: usize,
        resource: u8,
        allowance: u64,
    ) -> Result<(), Refusal> {
        ask(18, coordinator < 64 && allowance <= MOST_ALLOWANCE)?;
        let mut after = self.allowances.clone();
        after.insert((coordinator, resource), allowance);
        ask(19, after.len() <= MOST_PAIRS)?;
        self.allowances = after;
        Ok(())
    }

    /// The quantities that are posted, from those of the charge's own rule.
    pub fn concede(&self, charge: Charge, own: BTreeMap<Pair, i128>) -> BTreeMap<Pair, i128> {
        own.into_iter()
            .map(|(pair, quantity)| {
                let left = match charge {
                    Charge::MarketServices if self.excluded_market.contains(&pair.0.into()) => 0,
                    Charge::SystemOperations => self.system_operations(pair, quantity),
                    _ => quantity,
                };
                (pair, left)
            })
            .collect()
    }

    fn system_operations(&self, pair: Pair, quantity: i128) -> i128 {
        let coordinator = usize::from(pair.0);
        let allowance = *self.allowances.get(&(coordinator, pair.1)).unwrap_or(&0);
        let above = (quantity - i128::from(allowance)).max(0);
        let counted = if self.excluded_system.contains(&coordinator) { 0 } else { above };
        let percent = *self.percents.get(&coordinator).unwrap_or(&0);
        (counted * (100 - i128::from(percent))).div_euclid(100)
    }
}
