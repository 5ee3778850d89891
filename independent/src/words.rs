//! The words of test cases (docs/VECTORS.md), parsed and printed. `None` is a word that doesn't fit.

use crate::Refusal;

/// The most of anything that is counted in a case.
pub const COUNT_MOST: u64 = 1_000_000;

/// A number of decimal digits, up to a greatest value.
pub fn number(word: &[u8], most: u64) -> Option<u64> {
    if word.is_empty() {
        return None;
    }
    let mut value = 0u64;
    for &byte in word {
        if !byte.is_ascii_digit() {
            return None;
        }
        value = value.checked_mul(10)?.checked_add(u64::from(byte - b'0'))?;
    }
    (value <= most).then_some(value)
}

pub fn byte(word: &[u8]) -> Option<u8> {
    number(word, u8::MAX.into()).map(|value| value as u8)
}

pub fn short(word: &[u8]) -> Option<u16> {
    number(word, u16::MAX.into()).map(|value| value as u16)
}

pub fn long(word: &[u8]) -> Option<u32> {
    number(word, u32::MAX.into()).map(|value| value as u32)
}

pub fn count(word: &[u8]) -> Option<usize> {
    number(word, COUNT_MOST).map(|value| value as usize)
}

/// Hexadecimal bytes.
pub fn hex(word: &[u8]) -> Option<Vec<u8>> {
    if word == b"-" {
        return Some(Vec::new());
    }
    if word.len() % 2 != 0 {
        return None;
    }
    let digit = |byte: u8| char::from(byte).to_digit(16).map(|digit| digit as u8);
    word.chunks_exact(2).map(|pair| Some(digit(pair[0])? << 4 | digit(pair[1])?)).collect()
}

/// Rows of hexadecimal bytes with commas between them.
pub fn hex_list(word: &[u8]) -> Option<Vec<Vec<u8>>> {
    if word == b"." {
        return Some(Vec::new());
    }
    word.split(|&byte| byte == b',').map(hex).collect()
}

/// Whether a word writes a list of numbers or samples with nothing in it.
fn is_nothing(word: &[u8]) -> bool {
    matches!(word, b"" | b"-" | b".")
}

/// Samples, each a value or a value and how often it stands.
pub fn samples(word: &[u8]) -> Option<Vec<u16>> {
    let mut line = Vec::new();
    if is_nothing(word) {
        return Some(line);
    }
    for run in word.split(|&byte| byte == b',') {
        let (value, times) = match run.iter().position(|&byte| byte == b'*') {
            Some(star) => (&run[..star], count(&run[star + 1..])?),
            None => (run, 1),
        };
        let length = line.len() + times;
        if length as u64 > COUNT_MOST {
            return None;
        }
        line.resize(length, short(value)?);
    }
    Some(line)
}

/// Message numbers with commas between them.
pub fn numbers(word: &[u8]) -> Option<Vec<u8>> {
    if is_nothing(word) {
        return Some(Vec::new());
    }
    word.split(|&byte| byte == b',').map(byte).collect()
}

/// A word, or none for `-`. What is there must fit.
pub fn optional<T>(word: &[u8], parse: impl Fn(&[u8]) -> Option<T>) -> Option<Option<T>> {
    if word == b"-" {
        return Some(None);
    }
    parse(word).map(Some)
}

pub fn show_hex(bytes: &[u8]) -> String {
    if bytes.is_empty() {
        return "-".to_string();
    }
    const DIGITS: &[u8; 16] = b"0123456789ABCDEF";
    let mut shown = String::with_capacity(2 * bytes.len());
    for &byte in bytes {
        shown.push(DIGITS[usize::from(byte >> 4)].into());
        shown.push(DIGITS[usize::from(byte & 15)].into());
    }
    shown
}

pub fn show_hex_list<T: AsRef<[u8]>>(rows: &[T]) -> String {
    let rows: Vec<String> = rows.iter().map(|row| show_hex(row.as_ref())).collect();
    rows.join(",")
}

/// Samples in the longest runs.
pub fn show_samples(line: &[u16]) -> String {
    let run = |run: &[u16]| match run.len() {
        1 => run[0].to_string(),
        times => format!("{}*{}", run[0], times),
    };
    let runs: Vec<String> = line.chunk_by(|a, b| a == b).map(run).collect();
    runs.join(",")
}

pub fn show_refusal(refusal: Refusal) -> String {
    format!("refused {} {}", refusal.number, refusal.place)
}
