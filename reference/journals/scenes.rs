//! What a journal is about.

use crate::calls::{words, Call};
use crate::journal::Journal;
use crate::sheets::{encode, Rows};
use reference::book::{MOST_AMOUNT, MOST_RATE};
use reference::charges::{Charge, CHARGES};
use reference::engine::Outcome;

const CALLS: [(usize, Call); 14] = [
    (8, Call::Check),
    (4, Call::Open),
    (20, Call::Post),
    (16, Call::Quote),
    (7, Call::Adjust),
    (6, Call::PayMarket),
    (8, Call::PayRc),
    (5, Call::Assess),
    (10, Call::Default),
    (4, Call::Balances),
    (2, Call::Totals),
    (4, Call::Exclusion),
    (3, Call::RampIn),
    (4, Call::Grandfathering),
];

pub fn play(journal: &mut Journal) {
    match journal.random.below(1_000) {
        0..=1 => (),
        2..=16 => bound(journal),
        17..=41 => pairs(journal),
        42..=189 => defaults(journal),
        _ => mixed(journal),
    }
    audit(journal);
}

/// All balances and the totals.
fn audit(journal: &mut Journal) {
    for who in 0..journal.count() {
        journal.say(&words(&["balances", &who.to_string()]));
    }
    journal.say(&words(&["totals"]));
}

/// One call, at times spoiled, at times with a remark before it.
fn turn(journal: &mut Journal, call: Call) {
    if journal.random.chance(2) {
        journal.remark();
    }
    if matches!(call, Call::Open) && journal.random.chance(40) {
        audit(journal);
    }
    let words = journal.call(call);
    let spoiled = journal.spoiled;
    if journal.random.chance(spoiled) {
        return journal.say_spoiled(words);
    }
    let outcome = journal.say(&words);
    let opened = matches!(call, Call::Open) && matches!(outcome, Outcome::Done(_, Ok(_)));
    if opened && journal.random.chance(75) {
        turn(journal, Call::Assess);
    }
}

/// All calls in any order.
fn mixed(journal: &mut Journal) {
    if journal.random.chance(88) {
        turn(journal, Call::Open);
    }
    for _ in 0..journal.random.from_to(20, 60) {
        let call = journal.random.weighted(&CALLS);
        turn(journal, call);
    }
}

/// Assessments, many defaults by many debtors, and payments between them.
fn defaults(journal: &mut Journal) {
    for _ in 0..journal.random.from_to(1, 3) {
        let any = journal.random.from_to(2, 64) as usize;
        let count = journal.random.pick(&[1, 2, 3, 3, 4, 5, 8, any]);
        let open = journal.open_of(count);
        journal.say(&open);
        for _ in 0..3 {
            if !journal.engine.book.is_assessed() {
                turn(journal, Call::Assess);
            }
        }
        let most = if count > 8 { 15 } else { 25 };
        for _ in 0..journal.random.from_to(5, most) {
            let call = journal.random.weighted(&[
                (70, Call::Default),
                (15, Call::PayRc),
                (10, Call::Balances),
                (5, Call::Totals),
            ]);
            turn(journal, call);
        }
        if count <= 8 || journal.random.chance(50) {
            audit(journal);
        }
    }
}

/// Listed pairs up to 128 and beyond.
fn pairs(journal: &mut Journal) {
    let open = journal.open_of(3);
    journal.say(&open);
    let size = journal.random.from_to(126, 130) as usize;
    let near = (0..3).flat_map(|who| [0, 1, 7, 254, 255].map(|resource| (who, resource)));
    let far = (0..3).flat_map(|who| (0..64u8).map(move |i| (20 + who, 3 * i + who as u8)));
    let listed: Vec<(usize, u8)> = near.chain(far).take(size).collect();
    for (who, resource) in &listed {
        let allowance = journal.random.from_to(0, 400_000_000) as u64;
        let entry = journal.grandfathering(*who, *resource, allowance);
        journal.say(&entry);
    }
    for _ in 0..journal.random.from_to(20, 40) {
        match journal.random.below(6) {
            0 => turn(journal, Call::Grandfathering),
            1 => {
                let (who, resource) = journal.random.pick(&listed);
                let allowance = journal.allowance();
                let entry = journal.grandfathering(who, resource, allowance);
                journal.say(&entry);
            }
            2 => {
                let (who, resource) = (journal.random.below(66), journal.random.below(256));
                let entry = journal.grandfathering(who, resource as u8, 5);
                journal.say(&entry);
            }
            3 => turn(journal, Call::RampIn),
            _ => system_operations(journal),
        }
    }
}

/// A post or quote of System Operations with a good sheet.
fn system_operations(journal: &mut Journal) {
    let sheet = journal.sheet(Charge::SystemOperations, 0);
    let rate = journal.random.pick(&[100, 2_899, MOST_RATE]).to_string();
    if journal.random.chance(50) {
        let day = journal.random.from_to(1, 366).to_string();
        journal.say(&words(&["post", "system-operations", &day, &rate, &sheet]));
    } else {
        let who = journal.coordinator().to_string();
        journal.say(&words(&["quote", "system-operations", &who, &rate, &sheet]));
    }
}

/// Market balances driven to the bound, and calls there.
fn bound(journal: &mut Journal) {
    journal.odd = 0;
    journal.spoiled = 0;
    let count = journal.random.from_to(1, 3) as usize;
    let open = journal.open_of(count);
    journal.say(&open);
    let many = journal.random.chance(30);
    let drives = (0..journal.count()).filter(|who| many || *who + 1 == count);
    let driven: Vec<(usize, i128)> =
        drives.collect::<Vec<_>>().into_iter().map(|who| (who, sign(journal))).collect();
    for (who, sign) in &driven {
        while journal.room(*who, *sign) > MOST_AMOUNT {
            let short = journal.random.chance(1);
            let less = if short { journal.random.from_to(0, 1_000) } else { 0 };
            adjust(journal, *who, sign * (MOST_AMOUNT - less));
        }
    }
    for _ in 0..journal.random.from_to(40, 80) {
        if journal.random.chance(10) {
            let call = journal.random.pick(&[Call::Adjust, Call::PayMarket, Call::Balances]);
            turn(journal, call);
        } else if !driven.is_empty() {
            let (who, sign) = journal.random.pick(&driven);
            at_bound(journal, who, sign);
        }
    }
}

fn sign(journal: &mut Journal) -> i128 {
    journal.random.pick(&[1, -1])
}

fn adjust(journal: &mut Journal, who: usize, cents: i128) {
    journal.say(&words(&["adjust", &who.to_string(), &cents.to_string()]));
}

/// One call that reaches the bound, passes it by little, or stays short of it.
fn at_bound(journal: &mut Journal, who: usize, sign: i128) {
    let room = journal.room(who, sign);
    let near = room + journal.random.pick(&[-1, 0, 0, 1, 1, 1, 2, -2]);
    match journal.random.below(8) {
        0 => adjust(journal, who, sign * near),
        1 => {
            let left = journal.random.from_to(0, 300);
            adjust(journal, who, sign * (room - left));
        }
        2 => {
            let back = journal.random.pick(&[1, 2, 50, 100, 1_000_000, MOST_AMOUNT]);
            adjust(journal, who, -sign * back);
        }
        3 | 4 if sign < 0 => {
            let cents = near.max(0).to_string();
            journal.say(&words(&["pay", "market", &who.to_string(), &cents]));
        }
        3..=5 if near <= 100_000 => trades(journal, who, near.max(0) as u32),
        _ => {
            let (name, charge) = journal.random.pick(&CHARGES);
            let sheet = journal.sheet(charge, 0);
            let day = journal.day().to_string();
            journal.say(&words(&["post", name, &day, &MOST_RATE.to_string(), &sheet]));
        }
    }
}

/// A post of trade fees whose line for the coordinator, and some others, is exactly so high.
fn trades(journal: &mut Journal, who: usize, cents: u32) {
    let others = journal.random.chance(50);
    let rows: Rows = (0..journal.count())
        .filter(|other| *other == who || others)
        .map(|other| ([other as u8, 3, 4, 5, 6, 40], 0))
        .collect();
    let sheet = journal.sheet_word(&encode(&rows));
    let day = journal.random.from_to(1, 366).to_string();
    journal.say(&words(&["post", "trade", &day, &(100 * cents).to_string(), &sheet]));
}
