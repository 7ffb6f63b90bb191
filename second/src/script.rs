//! The tokens of a script line, and printing them: BYTES, REC and numbers, as the protocol of
//! `calls` states them. A token that breaks the grammar is none.

use crate::edition::CTB2_BYTES;
use crate::record::{First, Record};
use std::fmt::Write;

/// A longer line is `bad`, whatever it holds.
pub const LINE_LIMIT: usize = 2_200_000;

/// BYTES past this are a `bad` line.
pub const BYTES_LIMIT: usize = 1_048_577;

/// The tokens of a line, separated by one space; an empty token is none.
pub fn tokens(line: &[u8]) -> Option<Vec<&[u8]>> {
    if line.len() > LINE_LIMIT {
        return None;
    }
    let tokens: Vec<&[u8]> = line.split(|&byte| byte == b' ').collect();
    if tokens.iter().any(|token| token.is_empty()) {
        return None;
    }
    Some(tokens)
}

/// A decimal number below 2^32; leading zeros are allowed.
pub fn number(token: &[u8]) -> Option<u32> {
    if token.is_empty() {
        return None;
    }
    let mut value: u64 = 0;
    for &digit in token {
        if !digit.is_ascii_digit() {
            return None;
        }
        value = value * 10 + u64::from(digit - b'0');
        if value > u64::from(u32::MAX) {
            return None;
        }
    }
    Some(value as u32)
}

/// A number up to 255.
pub fn byte(token: &[u8]) -> Option<u8> {
    number(token).and_then(|value| u8::try_from(value).ok())
}

/// OVERRIDE: a number that "is `0` or `1`".
pub fn overriding(token: &[u8]) -> Option<bool> {
    match number(token)? {
        0 => Some(false),
        1 => Some(true),
        _ => None,
    }
}

/// A number of things lent, up to the most that the protocol allows.
pub fn room(token: &[u8], most: usize) -> Option<usize> {
    number(token)
        .map(|value| value as usize)
        .filter(|&value| value <= most)
}

/// Pairs of lower-case hex digits, at least one.
pub fn pairs(token: &[u8]) -> Option<Vec<u8>> {
    let pairs = token.chunks_exact(2);
    if token.is_empty() || !pairs.remainder().is_empty() {
        return None;
    }
    pairs
        .map(|pair| Some(hex_digit(pair[0])? * 16 + hex_digit(pair[1])?))
        .collect()
}

fn hex_digit(digit: u8) -> Option<u8> {
    match digit {
        b'0'..=b'9' => Some(digit - b'0'),
        b'a'..=b'f' => Some(digit - b'a' + 10),
        _ => None,
    }
}

/// BYTES: `-`, or parts joined by `+`.
pub fn bytes(token: &[u8]) -> Option<Vec<u8>> {
    let mut held = Vec::new();
    if token == b"-" {
        return Some(held);
    }
    for part in token.split(|&byte| byte == b'+') {
        let mut halves = part.splitn(2, |&byte| byte == b'*');
        let once = pairs(halves.next()?)?;
        let count = match halves.next() {
            Some(count) => number(count)? as usize,
            None => 1,
        };
        if once.len().checked_mul(count)? > BYTES_LIMIT - held.len() {
            return None;
        }
        held.extend(once.repeat(count));
    }
    Some(held)
}

/// REC: 52 hex digits, `:`, the Cntt value as two hex digits or `-`, `:`, then the Cntt's
/// position, "a byte in decimal"; or "94 hex digits (47 bytes) with nothing behind them".
pub fn record(token: &[u8]) -> Option<Record> {
    let parts: Vec<&[u8]> = token.split(|&byte| byte == b':').collect();
    match *parts.as_slice() {
        [digits] => Some(Record::Second(pairs(digits)?.try_into().ok()?)),
        [digits, cntt, position] => {
            let second_table = match cntt {
                b"-" => None,
                _ if cntt.len() == 2 => Some(pairs(cntt)?[0]),
                _ => return None,
            };
            Some(Record::First(First {
                bytes: pairs(digits)?.try_into().ok()?,
                second_table,
                position: byte(position)?,
            }))
        }
        _ => None,
    }
}

/// Bytes as plain hex, `-` where there are none.
pub fn show_bytes(bytes: &[u8]) -> String {
    if bytes.is_empty() {
        return "-".to_string();
    }
    let mut text = String::with_capacity(2 * bytes.len());
    push_hex(&mut text, bytes);
    text
}

/// A record as REC.
pub fn show_record(record: &Record) -> String {
    let mut text = String::with_capacity(2 * CTB2_BYTES);
    push_hex(&mut text, record.bytes());
    if let Record::First(first) = record {
        text.push(':');
        match first.second_table {
            Some(value) => push_hex(&mut text, &[value]),
            None => text.push('-'),
        }
        let _ = write!(text, ":{}", first.position);
    }
    text
}

/// Adds bytes as pairs of hex digits to a text.
pub fn push_hex(text: &mut String, bytes: &[u8]) {
    const DIGITS: &[u8; 16] = b"0123456789abcdef";
    for byte in bytes {
        text.push(char::from(DIGITS[usize::from(byte >> 4)]));
        text.push(char::from(DIGITS[usize::from(byte & 15)]));
    }
}
