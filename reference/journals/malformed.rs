//! Lines that are malformed, or nearly so.

use crate::journal::Journal;

/// What an argument has to be.
#[derive(Clone, Copy, PartialEq)]
enum Arg {
    Name,
    Sheet,
    List(u128),
    Number(u128),
    Signed,
}

const LONG: Arg = Arg::Number(u64::MAX as u128);
const BYTE: Arg = Arg::Number(u8::MAX as u128);
const DAY: Arg = Arg::Number(u16::MAX as u128);
const RATE: Arg = Arg::Number(u32::MAX as u128);

fn args(command: &str) -> &'static [Arg] {
    match command {
        "check" => &[Arg::Sheet],
        "open" => &[Arg::List(u32::MAX as u128), Arg::List(u8::MAX as u128)],
        "post" => &[Arg::Name, DAY, RATE, Arg::Sheet],
        "quote" => &[Arg::Name, LONG, RATE, Arg::Sheet],
        "adjust" => &[LONG, Arg::Signed],
        "pay" => &[Arg::Name, LONG, LONG],
        "assess" | "default" => &[LONG, LONG],
        "balances" => &[LONG],
        "exclusion" => &[Arg::Name, LONG, BYTE],
        "ramp-in" => &[LONG, BYTE],
        "grandfathering" => &[LONG, BYTE, LONG],
        _ => &[],
    }
}

const STRAY_WORDS: [&str; 14] = [
    "0", "1", "#", "# 1", "-", "ok", "hex:", "hex:0000", "totals", "\u{200b}", "\u{feff}", "\0",
    "\u{1c}", "x",
];

const STRAY_COMMANDS: [&str; 24] = [
    "chekc", "Check", "CHECK", "opened", "ope", "posts", "Post", "quotes", "adjust:", "pays",
    "assess-", "defaults", "default_on", "balance", "total", "Totals", "exclude", "ramp_in",
    "rampin", "grandfather", "--help", "//", "-", "\u{feff}totals",
];

const STRAY_NAMES: [&str; 22] = [
    "market", "rc", "RC", "Market", "both", "market-services", "system-operations", "bid-segment",
    "tor", "trade", "trade-fee", "TOR", "Tor", "market_services", "Market-Services", "system",
    "bid", "0", "1", "-", "market-services,", "systém-operations",
];

const STRAY_NUMBERS: [&str; 36] = [
    "-1", "-0", "-", "+", "++1", "+-1", "-+1", "--1", "1-", "1+", "0x1", "1e3", "1.0", "1_000",
    "1,000", "1'000", "a", "1a", "O", "\u{0663}", "\u{ff11}", "\u{b2}", "1\u{200b}", "½", "NaN",
    "256", "65536", "4294967296", "18446744073709551616", "9223372036854775808",
    "-9223372036854775809", "340282366920938463463374607431768211456",
    "100000000000000000000000000000000000000000000000000",
    "00000000000000000000018446744073709551616",
    "\u{1f}1", "1\0",
];

const STRAY_LISTS: [&str; 22] = [
    ",", "1,", ",1", "1,,1", "1;1", "1.1", "-,1", "1,-", "--", "-1", "1,-1", "-0,1", "[1]",
    "1,1,1,", ",,", "1,a,1", "256", "4294967296", "0,4294967296", "0,256", "1,+", "1，1",
];

const STRAY_SHEETS: [&str; 24] = [
    "hex:0", "hex:000", "hex:0g", "hex:zz", "hex:0x0000", "hex:00-00", "hex:00,00", "hex:00_0",
    "hex:é", "hex:0é0", "hex:+000", "hex:-0", "hex:00\u{200b}0", "hex", "HEX:0000", "Hex:0000",
    "0000", "none.sheet", "no/such/folder/file", ".", "..", "/", "hex:00\0", "x\0y",
];

impl Journal {
    /// A stray word for the argument.
    fn stray(&mut self, arg: Arg, word: &str) -> String {
        match arg {
            Arg::Name => self.random.pick(&STRAY_NAMES).to_string(),
            Arg::Sheet => self.stray_sheet(word),
            Arg::List(most) => match self.random.below(4) {
                0 => format!("{word},{}", most + 1),
                1 => format!("{word},{most}"),
                2 => format!("{word},"),
                _ => self.random.pick(&STRAY_LISTS).to_string(),
            },
            Arg::Number(most) => match self.random.below(5) {
                0 => (most + 1).to_string(),
                1 => format!("0{most}"),
                2 => format!("-{word}"),
                _ => self.random.pick(&STRAY_NUMBERS).to_string(),
            },
            Arg::Signed => match self.random.below(5) {
                0 => "9223372036854775808".to_string(),
                1 => "-9223372036854775809".to_string(),
                2 => self.random.pick(&["-00", "-0", "+0", "-01", "-+0", "+-0"]).to_string(),
                _ => self.random.pick(&STRAY_NUMBERS).to_string(),
            },
        }
    }

    fn stray_sheet(&mut self, word: &str) -> String {
        let mut letters: Vec<char> = word.chars().collect();
        let at = self.random.below(letters.len());
        match self.random.below(6) {
            0 => drop(letters.pop()),
            1 => letters.insert(at, '0'),
            2 => letters[at] = self.random.pick(&['g', 'G', '/', ':', '@', '`', '\0', 'ａ', ' ']),
            3 => letters = word.to_uppercase().chars().collect(),
            _ => letters = self.random.pick(&STRAY_SHEETS).chars().collect(),
        }
        letters.into_iter().collect()
    }

    /// Spoils a call's words in one way and adds the line.
    pub fn say_spoiled(&mut self, mut words: Vec<String>) {
        let at = self.random.below(words.len());
        let kinds = args(&words[0]);
        match self.random.below(12) {
            0 => drop(words.remove(at)),
            1 => drop(words.pop()),
            2 => words.push(self.random.pick(&STRAY_WORDS).to_string()),
            3 => words.insert(at, self.random.pick(&STRAY_WORDS).to_string()),
            4 => words[0] = self.random.pick(&STRAY_COMMANDS).to_string(),
            5 => return self.put_bytes(words),
            6 => words[at] = format!("{}{}", words[at], self.random.pick(&STRAY_WORDS)),
            _ if !kinds.is_empty() => {
                let at = self.random.below(kinds.len());
                words[at + 1] = self.stray(kinds[at], &words[at + 1].clone());
            }
            _ => words.push("0".to_string()),
        }
        self.say(&words);
    }

    /// A line that is not text: a call or a remark with a strange byte somewhere.
    fn put_bytes(&mut self, words: Vec<String>) {
        let mut line = words.join(" ").into_bytes();
        if self.random.chance(30) {
            line.splice(0..0, *b"# ");
        }
        let strange: &[u8] = self.random.pick(&[
            &[0xff][..],
            &[0x80],
            &[0xc0, 0x80],
            &[0xed, 0xa0, 0x80],
            &[0xe2, 0x82],
            &[0xf4, 0x90, 0x80, 0x80],
            &[0x85],
            &[0xa0],
        ]);
        let at = self.random.pick(&[0, line.len(), line.len() / 2]);
        line.splice(at..at, strange.iter().copied());
        self.put(&line);
    }

    /// A line that does nothing.
    pub fn remark(&mut self) {
        let space = self.space(0);
        let line = match self.random.below(5) {
            0 => String::new(),
            1 => space,
            2 => format!("{space}# totals"),
            3 => "#totals".to_string(),
            _ => format!("{space}#{space}"),
        };
        self.put(line.as_bytes());
    }
}
