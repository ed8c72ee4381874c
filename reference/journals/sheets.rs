//! Random sheets that are accepted, with rows close together.

use crate::journal::Journal;
use crate::random::Random;
use reference::charges::Charge;
use std::collections::BTreeMap;

pub type Key = [u8; 6];
pub type Rows = Vec<(Key, i32)>;

const KINDS: [u8; 24] = [
    1, 2, 3, 4, 5, 6, 7, 8, 9, 10, 11, 12, 13, 14, 20, 30, 31, 32, 33, 34, 35, 40, 50, 51,
];

fn kinds_of(charge: Charge) -> &'static [u8] {
    match charge {
        Charge::MarketServices => &KINDS[..14],
        Charge::SystemOperations => &[8, 20],
        Charge::BidSegment => &KINDS[15..21],
        Charge::Tor => &[50, 51],
        Charge::Trade => &[40],
    }
}

/// The bytes of a sheet of those rows.
pub fn encode(rows: &Rows) -> Vec<u8> {
    let mut bytes = (rows.len() as u16).to_be_bytes().to_vec();
    bytes.extend(rows.iter().flat_map(|(key, _)| *key));
    bytes.extend(rows.iter().flat_map(|(_, kwh)| kwh.to_be_bytes()));
    bytes
}

fn any_byte() -> Vec<u8> {
    (0..=255).collect()
}

/// The fields that the rows of a sheet are drawn from.
struct Pools {
    fields: [Vec<u8>; 6],
}

impl Pools {
    fn new(random: &mut Random, charge: Charge, coordinators: Vec<u8>, large: bool) -> Pools {
        let mut size = |small: i128, big: i128| -> usize {
            random.from_to(1, if large { big } else { small }) as usize
        };
        let sizes = [size(3, 12), size(3, 25), size(4, 13), size(4, 12), size(6, 10)];
        let resources = if random.chance(60) {
            random.some_of(&[0, 1, 7, 254, 255], sizes[0])
        } else {
            random.some_of(&any_byte(), sizes[0])
        };
        let resources = if charge == Charge::Tor && random.chance(80) {
            [vec![0], resources].concat()
        } else {
            resources
        };
        let hours = if random.chance(40) {
            random.some_of(&[1, 2, 24, 25], sizes[1])
        } else {
            random.some_of(&(1..=25).collect::<Vec<u8>>(), sizes[1])
        };
        let intervals = if random.chance(40) {
            random.some_of(&[0, 1, 12], sizes[2])
        } else {
            random.some_of(&(0..=12).collect::<Vec<u8>>(), sizes[2])
        };
        let parts = if random.chance(60) {
            random.some_of(&[0, 1, 2, 3, 255], sizes[3])
        } else {
            random.some_of(&any_byte(), sizes[3])
        };
        let mut kinds = random.some_of(kinds_of(charge), sizes[4]);
        if random.chance(40) {
            kinds.extend(random.some_of(&KINDS, sizes[4]));
        }
        kinds.sort();
        kinds.dedup();
        Pools { fields: [coordinators, resources, hours, intervals, parts, kinds] }
    }

    fn key(&self, random: &mut Random) -> Key {
        self.fields.each_ref().map(|field| random.pick(field))
    }
}

/// Quantities of one manner for a whole sheet, so that some sheets are all small or all large.
fn quantity(random: &mut Random, manner: usize, before: &[i32]) -> i32 {
    let sign = random.pick(&[-1, 1]);
    let some = match manner {
        0 => random.pick(&[0, 0, 1, -1, 2, -3]),
        1 => sign * random.from_to(0, 100) as i32,
        2 => random.pick(&[4_000_000, -4_000_000, 4_000_000, 3_999_999]),
        3 => sign * random.from_to(0, 4_000_000) as i32,
        4 => 10_000 * sign * random.from_to(0, 12) as i32,
        _ => 4_000_000,
    };
    match random.below(10) {
        0 | 1 if !before.is_empty() && manner < 5 => -random.pick(before),
        2 if !before.is_empty() && manner < 5 => random.pick(before),
        3 if manner < 5 => random.pick(&[0, 1, -1, 4_000_000, -4_000_000]),
        _ => some,
    }
}

fn draw(random: &mut Random, pools: &Pools, size: usize) -> Rows {
    let manner = random.pick(&[0, 1, 2, 3, 3, 3, 4, 4, 4, 5]);
    let mut rows = BTreeMap::new();
    let mut before = Vec::new();
    for _ in 0..2 * size {
        if rows.len() == size {
            break;
        }
        let kwh = quantity(random, manner, &before);
        before.push(kwh);
        rows.insert(pools.key(random), kwh);
    }
    rows.into_iter().collect()
}

impl Journal {
    /// The coordinators of a sheet: mostly those of the book, at times others below 64.
    fn sheet_coordinators(&mut self) -> Vec<u8> {
        let count = self.count() as u8;
        let size = self.random.from_to(1, 4) as usize;
        let mut some = self.random.some_of(&(0..count).collect::<Vec<u8>>(), size);
        if some.is_empty() || self.random.chance(8) {
            let any = self.random.below(64) as u8;
            some.push(self.random.pick(&[count.min(63), count.min(63), 63, any]));
        }
        some
    }

    pub fn rows_for(&mut self, charge: Charge) -> Rows {
        let large = self.large && self.random.chance(40);
        let coordinators = self.sheet_coordinators();
        let random = &mut self.random;
        let size = match random.below(100) {
            _ if large => random.pick(&[200, 700, 1_500, 2_047, 2_048, 2_048, 2_048]),
            0..=2 => 0,
            3..=14 => 1,
            15..=59 => random.from_to(2, 12) as usize,
            _ => random.from_to(10, 40) as usize,
        };
        if large && random.chance(30) {
            return full(random, charge, &coordinators, size);
        }
        let pools = Pools::new(random, charge, coordinators, large);
        draw(random, &pools, size)
    }
}

/// Exactly so many rows under one pair, of one kind or of all kinds of the charge.
fn full(random: &mut Random, charge: Charge, coordinators: &[u8], size: usize) -> Rows {
    let coordinator = random.pick(coordinators);
    let resource = if charge == Charge::Tor { 0 } else { random.below(256) as u8 };
    let kinds = if random.chance(50) {
        vec![random.pick(kinds_of(charge))]
    } else {
        kinds_of(charge).to_vec()
    };
    let manner = random.pick(&[2, 3, 5, 5]);
    let first = random.from_to(1, 20) as u8;
    let mut rows = Rows::new();
    for hour in first..=25 {
        for interval in 0..=12 {
            for part in 0..=255 {
                for kind in &kinds {
                    if rows.len() == size {
                        return rows;
                    }
                    let key = [coordinator, resource, hour, interval, part, *kind];
                    rows.push((key, quantity(random, manner, &[])));
                }
            }
        }
    }
    rows
}
