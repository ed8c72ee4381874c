//! Does the commands of a journal and prints what each is answered, without reasons.

use reference::engine::{Outcome, Engine};
use std::io::{self, Read, Write};
use std::process::ExitCode;
use std::{env, fs};

const HELP: &str = "reference [JOURNAL]\n\
    Does the commands of a journal, or of standard input, and prints the answers.\n";

fn main() -> ExitCode {
    match run() {
        Ok(0) => ExitCode::SUCCESS,
        Ok(malformed) => {
            eprintln!("reference: {malformed} malformed");
            ExitCode::FAILURE
        }
        Err(error) => {
            eprintln!("reference: {error}");
            ExitCode::FAILURE
        }
    }
}

/// The number of malformed lines.
fn run() -> io::Result<usize> {
    let journal = match env::args_os().nth(1) {
        Some(word) if word == "--help" => return print(HELP).map(|()| 0),
        Some(path) => fs::read(path)?,
        None => {
            let mut bytes = Vec::new();
            io::stdin().read_to_end(&mut bytes)?;
            bytes
        }
    };
    let mut engine = Engine::default();
    let outcomes: Vec<Outcome> =
        journal.split(|byte| *byte == b'\n').map(|line| engine.line(line)).collect();
    let answers: String = outcomes
        .iter()
        .enumerate()
        .filter_map(|(i, outcome)| outcome.text().map(|text| format!("{} {text}\n", i + 1)))
        .collect();
    print(&answers)?;
    Ok(outcomes.iter().filter(|outcome| matches!(outcome, Outcome::Malformed)).count())
}

fn print(text: &str) -> io::Result<()> {
    let mut out = io::stdout().lock();
    out.write_all(text.as_bytes())?;
    out.flush()
}
