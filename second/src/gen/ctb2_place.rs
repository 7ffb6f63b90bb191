//! The `place` lines of the catalogue for second-edition records (document 02, §4): which set a
//! note uses, every table under every rule, rule 2 and bad bytes in the used set and in others.

use crate::edition::{Edition, CTB2_BYTES};
use crate::gen::ctb2::{bad_pairs, bounds_of, plain, with, SETS};
use crate::gen::records::place_line;
use crate::gen::spell::Line;
use crate::ranges::{
    allowed, Allowed, GUITAR, HIGHEST_MIDDLE, HIGH_KEY, HIGH_LIMIT, LOWEST_MIDDLE, LOW_LIMIT, RULE,
    TABLE,
};

/// A note of each set of a plain record.
const NOTES: [u8; 3] = [40, 60, 80];

/// Tables on both sides of each bound, under every rule.
const TABLES: [u8; 12] = [
    0x00, 0x01, 0x02, 0x03, 0x0A, 0x0B, 0x80, 0x81, 0x82, 0x83, 0x8A, 0x8B,
];

pub fn place() -> Vec<Line> {
    let mut lines = orders();
    lines.extend(used_sets());
    lines.extend(tables());
    lines.extend(unused_sets());
    lines.extend(keys());
    lines.extend(limits());
    for index in 0..CTB2_BYTES {
        for (turn, value) in bounds_of(index).into_iter().enumerate() {
            let record = with(&[(index, value)]);
            lines.push(place_line(&record, 2, NOTES[turn % 3] + 1));
        }
    }
    lines
}

/// 16 before 9 before 17, of a note of each set.
fn orders() -> Vec<Line> {
    let mut lines = Vec::new();
    for (set, note) in SETS.into_iter().zip(NOTES) {
        let guitar = [(set + RULE, GUITAR)];
        let bad = [(set + RULE, GUITAR), (39, 6), (20, 0x80)];
        lines.push(place_line(&plain(3), 5, note));
        for changes in [&guitar[..], &bad, &bad[..2], &[(set + RULE, 1)]] {
            let record = with(changes);
            for (root, note) in [(5, note), (12, note), (5, note | 0x80)] {
                lines.push(place_line(&record, root, note));
            }
        }
    }
    for (first, second) in [(0, 39), (19, 20), (20, 21)] {
        let both = with(&[(first, 0xFF), (second, 0xFF), (46, 0xFF)]);
        lines.push(place_line(&both, 0, 60));
    }
    for (turn, pair) in bad_pairs().into_iter().enumerate() {
        lines.push(place_line(&with(&pair), 0, NOTES[turn % 3]));
    }
    lines
}

/// Notes at and beside each bound of the middle notes, crossed bounds too; the limits tell the
/// set: 10 to 21, 50 to 61 or 90 to 101.
fn used_sets() -> Vec<Line> {
    let mut lines = Vec::new();
    let bounds = [
        (48, 72),
        (0, 127),
        (0, 0),
        (127, 127),
        (127, 0),
        (60, 60),
        (61, 60),
        (80, 40),
        (1, 126),
    ];
    for (lowest, highest) in bounds {
        let mut changes = vec![(LOWEST_MIDDLE, lowest), (HIGHEST_MIDDLE, highest)];
        for (set, low) in SETS.into_iter().zip([10, 50, 90]) {
            changes.extend([(set + LOW_LIMIT, low), (set + HIGH_LIMIT, low + 11)]);
        }
        let record = with(&changes);
        let beside = |bound: u8| [bound.saturating_sub(1), bound, bound.saturating_add(1)];
        let mut notes = [beside(lowest), beside(highest)].concat();
        notes.extend([0, 127, 66]);
        notes.sort_unstable();
        notes.dedup();
        lines.extend(notes.iter().map(|&note| place_line(&record, 0, note)));
    }
    lines
}

/// Every table under every rule, in the set that the note uses.
fn tables() -> Vec<Line> {
    let mut lines = Vec::new();
    for (set, note) in SETS.into_iter().zip(NOTES) {
        for rule in [0, 1, GUITAR, 3] {
            for table in TABLES {
                let record = with(&[(set + RULE, rule), (set + TABLE, table)]);
                lines.push(place_line(&record, 4, note));
            }
        }
    }
    lines
}

/// Rules 1 and 2 in sets that the note does not use, with a table and with bypass, and bytes out of
/// range there.
fn unused_sets() -> Vec<Line> {
    let mut lines = Vec::new();
    for (set, own) in SETS.into_iter().zip(NOTES) {
        for note in NOTES.into_iter().filter(|&note| note != own) {
            for (rule, table) in [(GUITAR, 0x02), (GUITAR, 0x80), (GUITAR, 0x03), (1, 0x81)] {
                let record = with(&[(set + RULE, rule), (set + TABLE, table)]);
                lines.push(place_line(&record, 4, note));
            }
            for index in set..set + 6 {
                let above = match allowed(Edition::Second, index) {
                    Allowed::Within(_, high) => high + 1,
                    Allowed::Table => 0x0B,
                };
                lines.push(place_line(&with(&[(index, above)]), 4, note));
            }
        }
    }
    lines
}

/// High keys at and around the chord root, another for each set, and source roots above it.
fn keys() -> Vec<Line> {
    let mut lines = Vec::new();
    for root in [0, 1, 5, 6, 11] {
        for key in [root as u8 - u8::from(root > 0), root as u8] {
            for (turn, (set, note)) in SETS.into_iter().zip(NOTES).enumerate() {
                let mut changes: Vec<(usize, u8)> =
                    SETS.map(|other| (other + HIGH_KEY, 11 - key)).into();
                changes.push((set + HIGH_KEY, key));
                changes.push((18, [0, 7, 11][turn]));
                lines.push(place_line(&with(&changes), root as u8, note));
            }
        }
    }
    lines
}

/// Bypass by either table under both rules, and tables that are none.
const RULED: [(u8, u8); 6] = [
    (0, 0x01),
    (1, 0x80),
    (0, 0x00),
    (1, 0x00),
    (0, 0x80),
    (0, 0x8A),
];

/// Narrow, one-key and crossed limits of the set that the note uses, with and without bypass.
fn limits() -> Vec<Line> {
    let mut lines = Vec::new();
    let pairs = [
        (60, 63),
        (60, 60),
        (127, 127),
        (0, 0),
        (70, 60),
        (60, 74),
        (0, 5),
    ];
    for (turn, (low, high)) in pairs.into_iter().enumerate() {
        for (set, note) in SETS.into_iter().zip(NOTES) {
            for (step, also) in [0, 6, 7].into_iter().zip([0, 1, 2]) {
                let (rule, table) = RULED[(2 * turn + also + set) % RULED.len()];
                let record = with(&[
                    (18, 9),
                    (set + RULE, rule),
                    (set + TABLE, table),
                    (set + LOW_LIMIT, low),
                    (set + HIGH_LIMIT, high),
                ]);
                lines.push(place_line(&record, 4, note + step));
            }
        }
    }
    lines
}
