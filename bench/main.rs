// Posts a year of full sheets through the engine and through plain Rust, compares the cents and prints both times.
mod plain;

use plain::FULL_SHEET;
use std::collections::BTreeMap;
use std::time::Instant;

#[link(name = "export", kind = "static")]
unsafe extern "C" {
    fn kiglawin_post_year(sheets: *const u8, bytes: usize, rate: u32, balances: *mut i64, places: usize) -> u64;
}

// A fixed sequence of numbers.
struct Numbers(u64);

impl Numbers {
    fn below(&mut self, n: u64) -> u64 {
        self.0 = self.0.wrapping_mul(6364136223846793005).wrapping_add(1442695040888963407);
        (self.0 >> 33) % n
    }
}

// 2,048 rows of 64 coordinators with `resources` resources each.
fn sheet(numbers: &mut Numbers, resources: u64, out: &mut Vec<u8>) {
    const KINDS: [u8; 24] = [1, 2, 3, 4, 5, 6, 7, 8, 9, 10, 11, 12, 13, 14, 20, 30, 31, 32, 33, 34, 35, 40, 50, 51];
    let mut rows: BTreeMap<[u8; 6], i32> = BTreeMap::new();
    while rows.len() < 2048 {
        let key = [
            numbers.below(64) as u8,
            numbers.below(resources) as u8,
            1 + numbers.below(24) as u8,
            numbers.below(13) as u8,
            numbers.below(4) as u8,
            KINDS[numbers.below(24) as usize],
        ];
        rows.insert(key, numbers.below(8_000_001) as i32 - 4_000_000);
    }
    out.extend(2048u16.to_be_bytes());
    rows.keys().for_each(|key| out.extend(key));
    rows.values().for_each(|quantity| out.extend(quantity.to_be_bytes()));
}

fn main() {
    let resources = std::env::args().nth(1).and_then(|word| word.parse().ok()).unwrap_or(4);
    let mut numbers = Numbers(2026);
    let mut sheets = Vec::with_capacity(366 * 5 * FULL_SHEET);
    for _ in 0..366 * 5 {
        sheet(&mut numbers, resources, &mut sheets);
    }
    let rate = 2_899;

    let start = Instant::now();
    let mut balances = [0i64; 64];
    let accepted = unsafe { kiglawin_post_year(sheets.as_ptr(), sheets.len(), rate, balances.as_mut_ptr(), 64) };
    let engine = start.elapsed();

    let start = Instant::now();
    let (plain_balances, plain_accepted) = plain::post_year(&sheets, rate as i64);
    let plain = start.elapsed();

    assert_eq!((accepted, balances), (plain_accepted, plain_balances), "the cents differ");
    println!("{accepted} posts of 2,048 rows, {resources} resources a coordinator; {} cents in all, the same from both", balances.iter().sum::<i64>());
    println!("engine {:.3} s, plain Rust {:.3} s, ratio {:.2}", engine.as_secs_f64(), plain.as_secs_f64(), engine.as_secs_f64() / plain.as_secs_f64());
}
