//! A journal in the making: its text, and the state that its lines lead to.

use crate::random::Random;
use reference::engine::{Outcome, Engine};
use std::fs;

pub struct Journal {
    pub random: Random,
    pub engine: Engine,
    /// The days that this journal posts on most.
    pub days: Vec<u16>,
    /// Percent of lines that are spoiled.
    pub spoiled: usize,
    /// Percent of lines with odd white space or odd numbers.
    pub odd: usize,
    pub large: bool,
    number: u64,
    files: usize,
    end: &'static [u8],
    text: Vec<u8>,
}

impl Journal {
    pub fn new(seed: u64, number: u64) -> Journal {
        let mut random = Random::new(seed, number);
        let days = (0..random.from_to(1, 4)).map(|_| random.from_to(1, 366) as u16).collect();
        let spoiled = random.weighted(&[(60, 0), (30, 6), (10, 30)]);
        let odd = random.weighted(&[(70, 0), (20, 5), (10, 40)]);
        let large = random.chance(4);
        let end: &[u8] = if random.chance(4) { b"\r\n" } else { b"\n" };
        Journal {
            random,
            engine: Engine::default(),
            days,
            spoiled,
            odd,
            large,
            number,
            files: 0,
            end,
            text: Vec::new(),
        }
    }

    pub fn count(&self) -> usize {
        self.engine.book.count()
    }

    pub fn market(&self, coordinator: usize) -> i128 {
        self.engine.book.balances(coordinator).map_or(0, |balances| balances.0)
    }

    pub fn rc(&self, coordinator: usize) -> i128 {
        self.engine.book.balances(coordinator).map_or(0, |balances| balances.1)
    }

    /// Adds a line as it is and does it.
    pub fn put(&mut self, line: &[u8]) -> Outcome {
        self.text.extend_from_slice(line);
        self.text.extend_from_slice(self.end);
        self.engine.line(line)
    }

    /// Adds a line of words.
    pub fn say(&mut self, words: &[String]) -> Outcome {
        let odd = self.odd;
        let mut line = String::new();
        if self.random.chance(odd) {
            line += &self.space(0);
        }
        for (i, word) in words.iter().enumerate() {
            if i > 0 {
                line += &if self.random.chance(odd) { self.space(1) } else { " ".to_string() };
            }
            line += word;
        }
        if self.random.chance(odd) {
            line += &self.space(0);
        }
        self.put(line.as_bytes())
    }

    /// White space of at least that many characters.
    pub fn space(&mut self, least: usize) -> String {
        const SPACES: [char; 14] = [
            ' ', ' ', ' ', ' ', '\t', '\t', '\r', '\u{b}', '\u{c}', '\u{85}', '\u{a0}',
            '\u{2003}', '\u{2028}', '\u{3000}',
        ];
        let size = least + self.random.below(3);
        (0..size).map(|_| self.random.pick(&SPACES)).collect()
    }

    /// The word for a sheet of those bytes.
    pub fn sheet_word(&mut self, bytes: &[u8]) -> String {
        if self.random.chance(3) {
            let name = format!("{}-{}.sheet", self.number, self.files);
            self.files += 1;
            fs::write(&name, bytes).expect("the sheet's file is written");
            return if self.random.chance(20) { format!("./{name}") } else { name };
        }
        let digits: &[u8; 16] = match self.random.below(3) {
            0 => b"0123456789abcdef",
            1 => b"0123456789aBcDeF",
            _ => b"0123456789ABCDEF",
        };
        let digit = |value: u8| char::from(digits[usize::from(value)]);
        let mut word = String::with_capacity(4 + 2 * bytes.len());
        word += "hex:";
        for byte in bytes {
            word.push(digit(byte >> 4));
            word.push(digit(byte & 15));
        }
        word
    }

    /// The finished text; the last line may lack its newline.
    pub fn text(mut self) -> Vec<u8> {
        if self.random.chance(10) && self.text.ends_with(b"\n") {
            self.text.pop();
        }
        self.text
    }
}
