//! A line of a journal as a command. `None` is a malformed line.

use crate::charges::{Charge, CHARGES};
use crate::concessions::Table;
use crate::words::{list, number, sheet, signed};

#[derive(Clone, Debug)]
pub enum Command {
    Check { sheet: Vec<u8> },
    Open { demands: Vec<u32>, flags: Vec<u8> },
    Post { charge: Charge, day: u16, rate: u32, sheet: Vec<u8> },
    Quote { charge: Charge, coordinator: usize, rate: u32, sheet: Vec<u8> },
    Adjust { coordinator: usize, cents: i64 },
    PayMarket { coordinator: usize, cents: u64 },
    PayRc { coordinator: usize, cents: u64 },
    Assess { charge: u64, minimum: u64 },
    Default { debtor: usize, cents: u64 },
    Balances { coordinator: usize },
    Totals,
    Exclusion { table: Table, coordinator: usize, mark: u8 },
    RampIn { coordinator: usize, percent: u8 },
    Grandfathering { coordinator: usize, resource: u8, allowance: u64 },
}

impl Command {
    pub fn read(words: &[&str]) -> Option<Command> {
        let command = match *words {
            ["check", bytes] => Command::Check { sheet: sheet(bytes)? },
            ["open", demands, flags] => Command::Open {
                demands: list(demands, u32::MAX.into())?.iter().map(|n| *n as u32).collect(),
                flags: list(flags, u8::MAX.into())?.iter().map(|n| *n as u8).collect(),
            },
            ["post", rule, day, rate, bytes] => Command::Post {
                charge: charge(rule)?,
                day: number(day, u16::MAX.into())? as u16,
                rate: number(rate, u32::MAX.into())? as u32,
                sheet: sheet(bytes)?,
            },
            ["quote", rule, who, rate, bytes] => Command::Quote {
                charge: charge(rule)?,
                coordinator: coordinator(who)?,
                rate: number(rate, u32::MAX.into())? as u32,
                sheet: sheet(bytes)?,
            },
            ["adjust", who, cents] => {
                Command::Adjust { coordinator: coordinator(who)?, cents: signed(cents)? }
            }
            ["pay", "market", who, cents] => {
                Command::PayMarket { coordinator: coordinator(who)?, cents: long(cents)? }
            }
            ["pay", "rc", who, cents] => {
                Command::PayRc { coordinator: coordinator(who)?, cents: long(cents)? }
            }
            ["assess", charge, minimum] => {
                Command::Assess { charge: long(charge)?, minimum: long(minimum)? }
            }
            ["default", who, cents] => {
                Command::Default { debtor: coordinator(who)?, cents: long(cents)? }
            }
            ["balances", who] => Command::Balances { coordinator: coordinator(who)? },
            ["totals"] => Command::Totals,
            ["exclusion", name, who, mark] => Command::Exclusion {
                table: table(name)?,
                coordinator: coordinator(who)?,
                mark: byte(mark)?,
            },
            ["ramp-in", who, percent] => {
                Command::RampIn { coordinator: coordinator(who)?, percent: byte(percent)? }
            }
            ["grandfathering", who, resource, allowance] => Command::Grandfathering {
                coordinator: coordinator(who)?,
                resource: byte(resource)?,
                allowance: long(allowance)?,
            },
            _ => return None,
        };
        Some(command)
    }
}

fn charge(word: &str) -> Option<Charge> {
    CHARGES.iter().find(|(name, _)| *name == word).map(|(_, charge)| *charge)
}

fn table(word: &str) -> Option<Table> {
    match word {
        "market-services" => Some(Table::MarketServices),
        "system-operations" => Some(Table::SystemOperations),
        _ => None,
    }
}

fn coordinator(word: &str) -> Option<usize> {
    Some(number(word, usize::MAX as u128)? as usize)
}

fn long(word: &str) -> Option<u64> {
    Some(number(word, u64::MAX.into())? as u64)
}

fn byte(word: &str) -> Option<u8> {
    Some(number(word, u8::MAX.into())? as u8)
}
