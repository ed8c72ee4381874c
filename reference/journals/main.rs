//! Makes random journals from a seed: `journals SEED COUNT OUTDIR [FIRST]`.
//!
//! Journal number i depends on the seed and i alone. It is OUTDIR/i.journal; sheets that it reads
//! from files stand beside it, and it is to be run from OUTDIR. Every line is done by the
//! reference as it is made, so that amounts can be aimed at the balances of the moment.

mod calls;
mod damage;
mod figures;
mod journal;
mod malformed;
mod random;
mod scenes;
mod sheets;

use std::{env, fs, io, process};

fn main() {
    let words: Vec<String> = env::args().skip(1).collect();
    let number = |i: usize| words.get(i).map_or(Some(0), |word| word.parse::<u64>().ok());
    let (Some(seed), Some(count), Some(outdir), Some(first)) =
        (number(0), number(1), words.get(2), number(3))
    else {
        eprintln!("journals SEED COUNT OUTDIR [FIRST]");
        process::exit(2);
    };
    if let Err(error) = make(seed, count, outdir, first) {
        eprintln!("journals: {error}");
        process::exit(1);
    }
}

fn make(seed: u64, count: u64, outdir: &str, first: u64) -> io::Result<()> {
    fs::create_dir_all(outdir)?;
    env::set_current_dir(outdir)?;
    for number in first..first + count {
        let mut journal = journal::Journal::new(seed, number);
        scenes::play(&mut journal);
        fs::write(format!("{number}.journal"), journal.text())?;
    }
    Ok(())
}
