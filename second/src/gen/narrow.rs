//! Limits that are narrower than an octave, or crossed (document 02, §3): for the mixture, and the
//! `place` lines of the catalogue with them.

use crate::gen::cntts::with_cntt;
use crate::gen::dice::Dice;
use crate::gen::records::{place_line, with};
use crate::gen::spell::Line;

/// Low limits at the ends and between, each met by every width that ends at 127 or before.
const LOWS: [u8; 12] = [0, 1, 5, 6, 24, 35, 60, 67, 90, 110, 116, 121];

/// Limits of one to twelve keys, or crossed; often at an end.
pub fn limits(dice: &mut Dice) -> (u8, u8) {
    let any = dice.below(128) as u8;
    let near = dice.below(7) as u8;
    let low = dice.pick(&[any, any, any, any, any, near, 127 - near, 0, 127]);
    let other = dice.below(128) as u8;
    match dice.below(10) {
        0 => (low.max(other), low.min(other)),
        1 => (low, low.saturating_sub(1 + other % 14)),
        2 => (127 - other % 12, 127),
        3 => (0, other % 12),
        _ => (low, wide(low, 1 + other % 12)),
    }
}

/// The high limit of a range of so many keys, 127 at most.
fn wide(low: u8, keys: u8) -> u8 {
    (low + keys - 1).min(127)
}

/// A `place` line of a value, -22 to 138, of a record with these limits and other bytes.
fn value_line(value: i32, low: u8, high: u8, changes: &[(usize, u8)]) -> Line {
    let (root, source, note) = match value {
        ..0 => (1, 11, value + 22),
        0..=127 => (4, 4, value),
        _ => (11, 0, value - 11),
    };
    let key = if value < 0 { 0 } else { 11 };
    let limits = [(18, source), (22, key), (23, low), (24, high)];
    let record = with(&[&limits, changes].concat());
    place_line(&record, root, note as u8)
}

/// The catalogue of narrow and crossed limits.
pub fn place() -> Vec<Line> {
    let mut lines = widths();
    lines.extend(ends());
    lines.extend(crossed());
    lines.extend(bypassed());
    lines.extend(refused());
    lines
}

/// A value with this remainder by 12: below 0, above 127, or in one of the octaves between.
fn value_of(remainder: i32, turn: usize) -> i32 {
    let octaves = [60, -12, 0, 36, 120, 84, 132, -24, 108];
    let value = octaves[turn % octaves.len()] + remainder;
    match value {
        ..-22 => value + 12,
        139.. => value - 12,
        _ => value,
    }
}

/// Every width with every remainder, each at another low limit and with another octave.
fn widths() -> Vec<Line> {
    let mut lines = Vec::new();
    for keys in 1..=12u8 {
        for remainder in 0..12 {
            let turn = usize::from(keys) + 5 * remainder as usize;
            let low = LOWS[turn % LOWS.len()];
            let value = value_of(remainder, turn / 2);
            lines.push(value_line(value, low, wide(low, keys), &[]));
        }
    }
    lines
}

/// One-key limits at each end with every remainder, so that the nearer octave is often below 0 or
/// above 127; and an octave six keys up and six down at every third low limit.
fn ends() -> Vec<Line> {
    let mut lines = Vec::new();
    for low in [0, 1, 4, 5, 6, 121, 122, 123, 126, 127u8] {
        for remainder in 0..12 {
            let value = value_of(remainder, usize::from(low) + remainder as usize);
            lines.push(value_line(value, low, low, &[]));
        }
    }
    for low in (0..=127u8).step_by(3) {
        let tied = (i32::from(low) + 6) % 12;
        let value = value_of(tied, usize::from(low) / 3);
        lines.push(value_line(value, low, wide(low, 1 + low % 6), &[]));
    }
    lines
}

/// Crossed limits near to each other and far apart, with values below, between and above them.
fn crossed() -> Vec<Line> {
    let mut lines = Vec::new();
    let pairs = [
        (1, 0),
        (64, 63),
        (66, 60),
        (72, 60),
        (73, 60),
        (100, 40),
        (127, 126),
        (127, 0),
    ];
    for (low, high) in pairs {
        let (up, down) = (i32::from(low), i32::from(high));
        let middle = (up + down) / 2;
        for value in [down - 7, down, middle, up - 6, up, up + 6, up + 8, -5, 130] {
            lines.push(value_line(value.clamp(-22, 138), low, high, &[]));
        }
    }
    lines
}

/// Bypass under both rules, of even notes by table 00, of odd ones by Cntt 80: the note itself is
/// the value.
fn bypassed() -> Vec<Line> {
    let mut lines = Vec::new();
    for rule in [0, 1] {
        for (low, high) in [(60, 63), (60, 60), (127, 127), (0, 0), (70, 60)] {
            for note in [0, 8, 11, 54, 66, 71, 127] {
                let changes = [(18, 7), (20, rule), (21, 0), (23, low), (24, high)];
                let tabled = with(&changes);
                let tabled_3 = with(&[&changes[..], &[(21, 3)]].concat());
                let second = with_cntt(tabled_3, Some(0x80));
                let record = if note % 2 == 0 { tabled } else { second };
                lines.push(place_line(&record, 5, note));
            }
        }
    }
    lines
}

/// 16, 9 and 17 as ever, whatever the limits.
fn refused() -> Vec<Line> {
    let mut lines = Vec::new();
    for (low, high) in [(60, 63), (60, 60), (127, 127), (0, 0), (70, 60)] {
        let narrow = with(&[(23, low), (24, high)]);
        for (root, note) in [(12, 54), (0, 128), (255, 255)] {
            lines.push(place_line(&narrow, root, note));
        }
        for changes in [[(25, 6)], [(9, 7)], [(20, 2)], [(20, 1)]] {
            lines.push(value_line(54, low, high, &changes));
        }
    }
    lines
}
