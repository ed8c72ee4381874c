//! Sheets damaged in every way that questions 1 to 5 name.

use crate::random::Random;
use crate::sheets::{encode, Rows};

const STRANGE_KINDS: [u8; 17] =
    [0, 15, 16, 19, 21, 29, 36, 39, 41, 49, 52, 53, 64, 127, 128, 254, 255];

/// The bytes of the rows with one damage or several.
pub fn damaged(random: &mut Random, mut rows: Rows) -> Vec<u8> {
    for _ in 0..random.pick(&[1, 1, 1, 2, 3]) {
        match random.below(10) {
            0 | 1 => spoil_order(random, &mut rows),
            2 | 3 => spoil_field(random, &mut rows),
            4 | 5 => spoil_quantity(random, &mut rows),
            6 => edge_quantity(random, &mut rows),
            _ => return spoil_bytes(random, encode(&rows)),
        }
    }
    encode(&rows)
}

/// Question 3: keys that are equal or descend.
fn spoil_order(random: &mut Random, rows: &mut Rows) {
    if rows.is_empty() {
        rows.push(([0, 0, 1, 0, 0, 1], 5));
    }
    let at = random.below(rows.len());
    match random.below(4) {
        0 => {
            let twin = (rows[at].0, random.from_to(-9, 9) as i32);
            rows.insert(at + 1, twin);
        }
        1 => {
            let other = random.below(rows.len());
            rows.swap(at, other);
        }
        2 => rows.reverse(),
        _ => {
            // Lower in one field, higher in all that follow.
            let mut below = rows[at];
            let field = random.below(6);
            below.0[field] = below.0[field].saturating_sub(1);
            for later in field + 1..5 {
                let most = [63, 255, 25, 12, 255][later];
                below.0[later] = (below.0[later] + random.below(2) as u8).min(most);
            }
            rows.insert(at + 1, below);
        }
    }
    rows.truncate(2_048);
}

/// Question 4: a field out of range, its row moved to where it keeps the order, or not.
fn spoil_field(random: &mut Random, rows: &mut Rows) {
    if rows.is_empty() {
        rows.push(([0, 0, 1, 0, 0, 1], 5));
    }
    let at = random.below(rows.len());
    match random.below(5) {
        0 => rows[at].0[0] = random.pick(&[64, 64, 65, 127, 128, 255]),
        1 => rows[at].0[2] = random.pick(&[0, 0, 26, 26, 27, 128, 255]),
        2 => rows[at].0[3] = random.pick(&[13, 13, 14, 128, 255]),
        _ => rows[at].0[5] = random.pick(&STRANGE_KINDS),
    }
    if random.chance(80) {
        rows.sort();
    }
}

/// Question 5: a quantity out of range.
fn spoil_quantity(random: &mut Random, rows: &mut Rows) {
    if rows.is_empty() {
        rows.push(([0, 0, 1, 0, 0, 1], 5));
    }
    let at = random.below(rows.len());
    rows[at].1 =
        random.pick(&[4_000_001, -4_000_001, i32::MIN, i32::MAX, 1 << 24, -(1 << 24), 8_000_000]);
}

/// A quantity at the edge: no damage by itself.
fn edge_quantity(random: &mut Random, rows: &mut Rows) {
    if !rows.is_empty() {
        let at = random.below(rows.len());
        rows[at].1 = random.pick(&[4_000_000, -4_000_000]);
    }
}

/// Questions 1 and 2: too few bytes, too high a count, a length that does not fit.
fn spoil_bytes(random: &mut Random, mut bytes: Vec<u8>) -> Vec<u8> {
    let count = u16::from_be_bytes([bytes[0], bytes[1]]);
    let set = |bytes: &mut Vec<u8>, count: u16| {
        bytes[..2].copy_from_slice(&count.to_be_bytes());
    };
    match random.below(12) {
        0 => bytes.clear(),
        1 => bytes.truncate(1),
        2 => bytes = vec![random.pick(&[0, 1, 8, 255])],
        3 => set(&mut bytes, 2_049),
        4 => set(&mut bytes, random.pick(&[2_050, 2_304, 4_096, 32_768, 65_535])),
        5 => {
            if random.chance(10) {
                bytes = vec![0; 2 + 10 * 2_049];
            }
            set(&mut bytes, 2_049);
        }
        6 => set(&mut bytes, count + 1),
        7 => set(&mut bytes, count.saturating_sub(1)),
        8 => set(&mut bytes, random.pick(&[0, 1, 2_048])),
        9 => {
            let left = bytes.len() - random.below(bytes.len().min(12));
            bytes.truncate(left);
        }
        _ => {
            let more = random.from_to(1, 11) as usize;
            bytes.extend((0..more).map(|_| random.below(256) as u8));
        }
    }
    bytes
}
