//! The words of a journal: numbers, lists and sheets. `None` is a word that is not of its kind.

use std::fs;

/// Decimal digits, a plus sign in front allowed, at most `most`.
pub fn number(word: &str, most: u128) -> Option<u128> {
    let digits = word.strip_prefix('+').unwrap_or(word);
    if digits.is_empty() || !digits.bytes().all(|byte| byte.is_ascii_digit()) {
        return None;
    }
    let value = digits.bytes().try_fold(0u128, |high, digit| {
        high.checked_mul(10)?.checked_add(u128::from(digit - b'0'))
    })?;
    (value <= most).then_some(value)
}

/// The same with a minus sign allowed instead of the plus sign.
pub fn signed(word: &str) -> Option<i64> {
    let (negative, digits) = match word.strip_prefix('-') {
        Some(digits) if !digits.starts_with('+') => (true, digits),
        Some(_) => return None,
        None => (false, word),
    };
    let size = number(digits, 1 << 63)? as i128;
    i64::try_from(if negative { -size } else { size }).ok()
}

/// Numbers with a comma between them; a single `-` is the empty list.
pub fn list(word: &str, most: u128) -> Option<Vec<u128>> {
    if word == "-" {
        return Some(Vec::new());
    }
    word.split(',').map(|place| number(place, most)).collect()
}

/// Bytes after `hex:`, or those of a file.
pub fn sheet(word: &str) -> Option<Vec<u8>> {
    match word.strip_prefix("hex:") {
        Some(digits) => bytes(digits.as_bytes()),
        None => fs::read(word).ok(),
    }
}

fn bytes(digits: &[u8]) -> Option<Vec<u8>> {
    if digits.len() % 2 != 0 {
        return None;
    }
    digits.chunks(2).map(|two| Some(16 * digit(two[0])? + digit(two[1])?)).collect()
}

fn digit(byte: u8) -> Option<u8> {
    match byte {
        b'0'..=b'9' => Some(byte - b'0'),
        b'a'..=b'f' => Some(byte - b'a' + 10),
        b'A'..=b'F' => Some(byte - b'A' + 10),
        _ => None,
    }
}
