//! A book and the concessions beside it: does the lines of a journal and tells the answers.

use crate::book::{Book, MOST_RATE};
use crate::charges::{quantities, Charge, Pair};
use crate::command::Command;
use crate::concessions::Tables;
use crate::refusal::{ask, Refusal};
use crate::sheet;
use std::collections::BTreeMap;
use std::str;

#[derive(Clone, Default)]
pub struct Engine {
    pub book: Book,
    pub tables: Tables,
}

/// What a line comes to.
pub enum Outcome {
    Nothing,
    Malformed,
    /// The command's first word, and what it is answered.
    Done(String, Result<Vec<i128>, Refusal>),
}

impl Outcome {
    /// The line to print, without its number.
    pub fn text(&self) -> Option<String> {
        match self {
            Outcome::Nothing => None,
            Outcome::Malformed => Some("malformed".to_string()),
            Outcome::Done(name, Ok(answer)) => {
                let figures: String = answer.iter().map(|figure| format!(" {figure}")).collect();
                Some(format!("{name} ok{figures}"))
            }
            Outcome::Done(name, Err(no)) => {
                Some(format!("{name} refused {} {} {}", no.question, no.layer(), no.place))
            }
        }
    }
}

impl Engine {
    pub fn line(&mut self, line: &[u8]) -> Outcome {
        let Ok(text) = str::from_utf8(line) else {
            return Outcome::Malformed;
        };
        let words: Vec<&str> = text.split_whitespace().collect();
        if words.first().map_or(true, |word| word.starts_with('#')) {
            return Outcome::Nothing;
        }
        match Command::read(&words) {
            None => Outcome::Malformed,
            Some(command) => Outcome::Done(words[0].to_string(), self.command(command)),
        }
    }

    pub fn command(&mut self, command: Command) -> Result<Vec<i128>, Refusal> {
        let none = |()| Vec::new();
        let two = |(first, second)| vec![first, second];
        let (book, tables) = (&mut self.book, &mut self.tables);
        match command {
            Command::Check { sheet } => Ok(vec![sheet::check(&sheet)?.len() as i128]),
            Command::Open { demands, flags } => Ok(vec![book.open(&demands, &flags)? as i128]),
            Command::Post { charge, day, rate, sheet } => {
                ask(8, rate <= MOST_RATE && (1..=366).contains(&day))?;
                let quantities = self.posted_quantities(charge, &sheet)?;
                Ok(vec![self.book.post(charge.code(), day, rate, &quantities)?])
            }
            Command::Quote { charge, coordinator, rate, sheet } => {
                ask(8, rate <= MOST_RATE)?;
                let quantities = self.posted_quantities(charge, &sheet)?;
                self.book.quote(coordinator, rate, &quantities).map(two)
            }
            Command::Adjust { coordinator, cents } => book.adjust(coordinator, cents).map(none),
            Command::PayMarket { coordinator, cents } => {
                book.pay_market(coordinator, cents).map(none)
            }
            Command::PayRc { coordinator, cents } => book.pay_rc(coordinator, cents).map(none),
            Command::Assess { charge, minimum } => book.assess(charge, minimum).map(none),
            Command::Default { debtor, cents } => book.default_on(debtor, cents).map(none),
            Command::Balances { coordinator } => book.balances(coordinator).map(two),
            Command::Totals => Ok(two(book.totals())),
            Command::Exclusion { table, coordinator, mark } => {
                tables.enter_mark(table, coordinator, mark).map(none)
            }
            Command::RampIn { coordinator, percent } => {
                tables.enter_percent(coordinator, percent).map(none)
            }
            Command::Grandfathering { coordinator, resource, allowance } => {
                tables.enter_allowance(coordinator, resource, allowance).map(none)
            }
        }
    }

    /// Questions 1 to 5 and 9, and then the quantities with all concessions made.
    fn posted_quantities(
        &self,
        charge: Charge,
        bytes: &[u8],
    ) -> Result<BTreeMap<Pair, i128>, Refusal> {
        let rows = sheet::check(bytes)?;
        self.book.knows(&rows)?;
        Ok(self.tables.concede(charge, quantities(charge, &rows)))
    }
}
