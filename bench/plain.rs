// The five charges in plain Rust, written from docs/ for comparison: one pass over each pair's rows.
pub const FULL_SHEET: usize = 20_482;

struct Row {
    key: [u8; 6],
    quantity: i64,
}

fn rows(sheet: &[u8]) -> Option<Vec<Row>> {
    let count = u16::from_be_bytes([*sheet.first()?, *sheet.get(1)?]) as usize;
    if count > 2048 || sheet.len() != 2 + 10 * count {
        return None;
    }
    let (keys, quantities) = sheet[2..].split_at(6 * count);
    let mut rows: Vec<Row> = Vec::with_capacity(count);
    for (key, quantity) in keys.chunks_exact(6).zip(quantities.chunks_exact(4)) {
        let key: [u8; 6] = key.try_into().ok()?;
        let quantity = i32::from_be_bytes(quantity.try_into().ok()?) as i64;
        let known = matches!(key[5], 1..=14 | 20 | 30..=35 | 40 | 50 | 51);
        let ascends = rows.last().map_or(true, |before| before.key < key);
        if !ascends || key[0] > 63 || !(1..=25).contains(&key[2]) || key[3] > 12 || !known || quantity.abs() > 4_000_000 {
            return None;
        }
        rows.push(Row { key, quantity });
    }
    Some(rows)
}

fn net(rows: &[Row], kinds: std::ops::RangeInclusive<u8>) -> i64 {
    rows.iter().filter(|r| kinds.contains(&r.key[5])).map(|r| r.quantity).sum()
}

fn gross(rows: &[Row], kinds: std::ops::RangeInclusive<u8>) -> i64 {
    rows.iter().filter(|r| kinds.contains(&r.key[5])).map(|r| r.quantity.abs()).sum()
}

fn nonzero(rows: &[Row], kind: u8) -> i64 {
    rows.iter().filter(|r| r.key[5] == kind && r.quantity != 0).count() as i64
}

fn segments(bids: i64, schedules: i64) -> i64 {
    if schedules == 0 { bids } else { schedules + (bids - 1).max(0) }
}

fn hour_of_market_services(rows: &[Row]) -> i64 {
    let (mut energy, mut balance) = (0, 0);
    for interval in rows.chunk_by(|a, b| a.key[3] == b.key[3]) {
        energy += net(interval, 1..=1).abs() + net(interval, 2..=2).abs() + net(interval, 3..=7).abs();
        balance += net(interval, 8..=8).abs();
    }
    (energy - balance).max(0) + gross(rows, 9..=14)
}

fn quantity(code: usize, rows: &[Row]) -> i64 {
    let hours = || rows.chunk_by(|a, b| a.key[2] == b.key[2]);
    match code {
        0 => 100 * hours().map(hour_of_market_services).sum::<i64>(),
        1 => {
            let parts = rows.chunk_by(|a, b| a.key[..5] == b.key[..5]);
            100 * parts.map(|p| (net(p, 20..=20) - net(p, 8..=8)).abs()).sum::<i64>()
        }
        2 => {
            let market = |h: &[Row]| segments(nonzero(h, 30), nonzero(h, 31)) + segments(nonzero(h, 32), nonzero(h, 33));
            100_000 * (hours().map(market).sum::<i64>() + nonzero(rows, 34) + nonzero(rows, 35))
        }
        3 if rows[0].key[1] == 0 => 100 * gross(rows, 50..=50).min(gross(rows, 51..=51)),
        3 => 0,
        _ => 100_000 * rows.iter().filter(|r| r.key[5] == 40).count() as i64,
    }
}

pub fn post_year(sheets: &[u8], rate: i64) -> ([i64; 64], u64) {
    let mut balances = [0i64; 64];
    let mut accepted = 0;
    for (place, sheet) in sheets.chunks(FULL_SHEET).enumerate() {
        let Some(rows) = rows(sheet) else { continue };
        let mut quantities = [0i64; 64];
        for pair in rows.chunk_by(|a, b| a.key[..2] == b.key[..2]) {
            quantities[pair[0].key[0] as usize] += quantity(place % 5, pair);
        }
        for (balance, quantity) in balances.iter_mut().zip(quantities) {
            *balance += (quantity * rate + 5_000_000) / 10_000_000;
        }
        accepted += 1;
    }
    (balances, accepted)
}
