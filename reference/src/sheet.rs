//! The day sheet: its bytes, taken apart into rows, and questions 1 to 5.

use crate::refusal::{ask, Refusal};
use std::collections::BTreeSet;

pub const MOST_ROWS: usize = 2_048;
pub const MOST_KWH: i128 = 4_000_000;

#[derive(Clone, Copy, Debug, PartialEq, Eq)]
pub struct Row {
    pub coordinator: u8,
    pub resource: u8,
    pub hour: u8,
    pub interval: u8,
    pub part: u8,
    pub kind: u8,
    pub kwh: i128,
}

impl Row {
    fn key(&self) -> [u8; 6] {
        [self.coordinator, self.resource, self.hour, self.interval, self.part, self.kind]
    }

    fn in_range(&self) -> bool {
        self.coordinator <= 63
            && (1..=25).contains(&self.hour)
            && self.interval <= 12
            && is_kind(self.kind)
    }
}

pub fn is_kind(kind: u8) -> bool {
    matches!(kind, 1..=14 | 20 | 30..=35 | 40 | 50 | 51)
}

/// All rows of the sheet, or the first question whose answer is no.
pub fn check(bytes: &[u8]) -> Result<Vec<Row>, Refusal> {
    let count = match bytes {
        [high, low, ..] => usize::from(*high) * 256 + usize::from(*low),
        _ => usize::MAX,
    };
    ask(1, count <= MOST_ROWS)?;
    ask(2, bytes.len() == 2 + 10 * count)?;
    let (keys, quantities) = bytes[2..].split_at(6 * count);
    let rows: Vec<Row> = keys
        .chunks_exact(6)
        .zip(quantities.chunks_exact(4))
        .map(|(key, quantity)| decode(key, quantity))
        .collect();
    match faults(&rows).first() {
        None => Ok(rows),
        Some(&(place, question)) => Err(Refusal { question, place }),
    }
}

fn decode(key: &[u8], quantity: &[u8]) -> Row {
    let unsigned = quantity.iter().fold(0i128, |high, &low| high * 256 + i128::from(low));
    let kwh = if unsigned >= 1 << 31 { unsigned - (1 << 32) } else { unsigned };
    Row {
        coordinator: key[0],
        resource: key[1],
        hour: key[2],
        interval: key[3],
        part: key[4],
        kind: key[5],
        kwh,
    }
}

/// Every row and question that do not agree: by row, then by question.
fn faults(rows: &[Row]) -> BTreeSet<(usize, u8)> {
    let descents = rows
        .windows(2)
        .enumerate()
        .filter(|(_, pair)| pair[1].key() <= pair[0].key())
        .map(|(before, _)| (before + 1, 3));
    let strays = rows.iter().enumerate().filter(|(_, row)| !row.in_range()).map(|(i, _)| (i, 4));
    let excesses = rows
        .iter()
        .enumerate()
        .filter(|(_, row)| row.kwh.abs() > MOST_KWH)
        .map(|(i, _)| (i, 5));
    descents.chain(strays).chain(excesses).collect()
}
