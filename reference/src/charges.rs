//! The five charges: the charge quantity of every coordinator and resource on a sheet.

use crate::sheet::Row;
use std::collections::BTreeMap;

#[derive(Clone, Copy, Debug, PartialEq, Eq)]
pub enum Charge {
    MarketServices,
    SystemOperations,
    BidSegment,
    Tor,
    Trade,
}

pub const CHARGES: [(&str, Charge); 5] = [
    ("market-services", Charge::MarketServices),
    ("system-operations", Charge::SystemOperations),
    ("bid-segment", Charge::BidSegment),
    ("tor", Charge::Tor),
    ("trade", Charge::Trade),
];

impl Charge {
    pub fn code(self) -> u8 {
        self as u8
    }
}

/// A coordinator and a resource.
pub type Pair = (u8, u8);

/// The charge quantity of each pair that has rows; any other pair has none.
pub fn quantities(charge: Charge, rows: &[Row]) -> BTreeMap<Pair, i128> {
    let mut pairs: BTreeMap<Pair, Vec<Row>> = BTreeMap::new();
    for row in rows {
        pairs.entry((row.coordinator, row.resource)).or_default().push(*row);
    }
    pairs.into_iter().map(|(pair, own)| (pair, quantity(charge, pair, &own))).collect()
}

fn quantity(charge: Charge, pair: Pair, rows: &[Row]) -> i128 {
    match charge {
        Charge::MarketServices => 100 * market_services(rows),
        Charge::SystemOperations => 100 * system_operations(rows),
        Charge::BidSegment => 100_000 * bid_segments(rows),
        Charge::Tor if pair.1 == 0 => 100 * tor(rows),
        Charge::Tor => 0,
        Charge::Trade => 100_000 * count(rows, |row| row.kind == 40),
    }
}

/// The line in cents: the nearest cent, a half up.
pub fn line(quantity: i128, rate: u32) -> i128 {
    (quantity * i128::from(rate) + 5_000_000).div_euclid(10_000_000)
}

/// Sums the figures that stand under the same key.
fn sums<K: Ord>(figures: impl Iterator<Item = (K, i128)>) -> BTreeMap<K, i128> {
    figures.fold(BTreeMap::new(), |mut sums, (key, figure)| {
        *sums.entry(key).or_insert(0) += figure;
        sums
    })
}

fn count(rows: &[Row], which: impl Fn(&Row) -> bool) -> i128 {
    rows.iter().filter(|row| which(row)).count() as i128
}

/// What is summed with its signs within an interval.
#[derive(Clone, Copy, PartialEq, Eq, PartialOrd, Ord)]
enum Family {
    DayAhead,
    Hasp,
    RealTime,
    Balance,
}

fn family(kind: u8) -> Option<Family> {
    match kind {
        1 => Some(Family::DayAhead),
        2 => Some(Family::Hasp),
        3..=7 => Some(Family::RealTime),
        8 => Some(Family::Balance),
        _ => None,
    }
}

fn market_services(rows: &[Row]) -> i128 {
    let nets = sums(rows.iter().filter_map(|row| {
        family(row.kind).map(|family| ((row.hour, row.interval, family), row.kwh))
    }));
    let by_hour = |balance: bool| {
        sums(
            nets.iter()
                .filter(|((_, _, family), _)| (*family == Family::Balance) == balance)
                .map(|((hour, _, _), net)| (*hour, net.abs())),
        )
    };
    let (energy, balance) = (by_hour(false), by_hour(true));
    let left: i128 = energy
        .iter()
        .map(|(hour, kwh)| (kwh - balance.get(hour).unwrap_or(&0)).max(0))
        .sum();
    let awards: i128 =
        rows.iter().filter(|row| (9..=14).contains(&row.kind)).map(|row| row.kwh.abs()).sum();
    left + awards
}

fn system_operations(rows: &[Row]) -> i128 {
    let nets = sums(rows.iter().filter_map(|row| {
        let place = (row.hour, row.interval, row.part);
        match row.kind {
            20 => Some((place, row.kwh)),
            8 => Some((place, -row.kwh)),
            _ => None,
        }
    }));
    nets.values().map(|net| net.abs()).sum()
}

fn bid_segments(rows: &[Row]) -> i128 {
    let counts = sums(rows.iter().filter(|row| row.kwh != 0).map(|row| ((row.kind, row.hour), 1)));
    let number = |kind: u8, hour: u8| *counts.get(&(kind, hour)).unwrap_or(&0);
    let markets = [(30, 31), (32, 33)];
    let in_markets: i128 = (1..=25)
        .flat_map(|hour| markets.map(|(bid, own)| (number(bid, hour), number(own, hour))))
        .map(|(bids, own)| if own == 0 { bids } else { own + (bids - 1).max(0) })
        .sum();
    in_markets + count(rows, |row| row.kwh != 0 && (row.kind == 34 || row.kind == 35))
}

fn tor(rows: &[Row]) -> i128 {
    let sides = sums(rows.iter().map(|row| (row.kind, row.kwh.abs())));
    let side = |kind: u8| *sides.get(&kind).unwrap_or(&0);
    side(50).min(side(51))
}
