//! The catalogue of the verbs on records alone: place, screen and write.

use crate::edition::FIELDS;
use crate::gen::bodies::seg_text;
use crate::gen::cntts::{self, at_position};
use crate::gen::dice::Dice;
use crate::gen::faults::{further_texts, long_text, principal_texts};
use crate::gen::locks::{self, unlocked};
use crate::gen::narrow;
use crate::gen::positions::{self, number, number_somehow, some_position, Order, ANY_POSITION};
use crate::gen::sound::{self, plain, record, records, CNTT_VALUES};
use crate::gen::spell::{rec, write_line, Line};
use crate::gen::{ctb2_lines, ctb2_place};
use crate::ranges::RANGES;
use crate::record::{First, Record};
use crate::write::group_bytes;

/// Cntt values on both sides of each bound.
const CNTT_BOUNDS: [u8; 14] = [
    0x00, 0x01, 0x03, 0x04, 0x05, 0x06, 0x0A, 0x0B, 0x7F, 0x80, 0x81, 0x8A, 0x8B, 0xFF,
];

pub fn place_line(record: &Record, root: u8, note: u8) -> Line {
    format!("place {} {root} {note}", rec(record)).into()
}

/// A plain record of channel 3 with some bytes set.
pub fn with(changes: &[(usize, u8)]) -> Record {
    let mut record = plain(3);
    for &(index, value) in changes {
        record[index] = value;
    }
    record
}

fn with_cntt(changes: &[(usize, u8)], value: u8) -> Record {
    cntts::with_cntt(with(changes), Some(value))
}

/// Every value at a bound of a byte's range, inside and outside.
fn bounds(index: usize) -> Vec<u8> {
    let (low, high) = RANGES[index];
    sound::bounds(low, high)
}

pub fn place(dice: &mut Dice) -> Vec<Line> {
    let mut lines = vec![
        place_line(&with(&[(22, 5)]), 5, 60),
        place_line(&with(&[(22, 5)]), 6, 60),
        place_line(&with(&[(23, 60), (24, 65)]), 0, 54),
        place_line(&with(&[(20, 1)]), 0, 60),
        place_line(&with(&[(9, 0)]), 0, 60),
        place_line(&plain(3), 12, 60),
        place_line(&plain(3), 0, 128),
    ];
    lines.extend(place_orders());
    lines.extend(ctb2_place::place());
    lines.extend(place_positions());
    lines.extend(place_tables());
    lines.extend(place_limits());
    lines.extend(place_keys(dice));
    for index in 0..FIELDS {
        for value in bounds(index) {
            lines.push(place_line(&with(&[(index, value)]), 2, 61));
        }
    }
    lines.extend(narrow::place());
    lines
}

/// 16 before 9 before 17, with limits that no octave lies within too; the first bad byte, the
/// Cntt counted as byte 21.
fn place_orders() -> Vec<Line> {
    let mut lines = Vec::new();
    let chords = [
        (12, 0),
        (127, 0),
        (128, 0),
        (255, 0),
        (0, 128),
        (0, 255),
        (11, 127),
        (0, 0),
        (0, 11),
        (0, 12),
        (12, 128),
    ];
    for (root, note) in chords {
        for record in [
            plain(3),
            with(&[(0, 16)]),
            with(&[(20, 1)]),
            with(&[(23, 9), (24, 8)]),
        ] {
            lines.push(place_line(&record, root, note));
        }
    }
    let crossed_fixed = with(&[(20, 1), (23, 9), (24, 8)]);
    let bad_fixed = with(&[(20, 1), (25, 6), (23, 9), (24, 8)]);
    lines.push(place_line(&crossed_fixed, 0, 60));
    lines.push(place_line(&bad_fixed, 0, 60));
    for (first, second) in [(0, 25), (9, 18), (20, 21), (21, 22), (19, 20), (22, 24)] {
        let both = with(&[(first, 0xFF), (second, 0xFF)]);
        lines.push(place_line(&both, 0, 60));
    }
    for index in [20, 21, 22] {
        lines.push(place_line(&with_cntt(&[(index, 0xFF)], 0x05), 0, 60));
        lines.push(place_line(&with_cntt(&[(index, 0xFF)], 0x80), 0, 60));
    }
    lines
}

/// Any position with and without a Cntt: placing does not read it.
fn place_positions() -> Vec<Line> {
    let mut lines = Vec::new();
    for position in ANY_POSITION {
        for record in [
            plain(3),
            with_cntt(&[], 0x84),
            with_cntt(&[(20, 1)], 0x80),
            with_cntt(&[(20, 1)], 0x81),
            with_cntt(&[], 0x05),
        ] {
            lines.push(place_line(&at_position(record, position), 4, 60));
        }
    }
    lines
}

/// Every table with and without a Cntt, under both rules.
fn place_tables() -> Vec<Line> {
    let mut lines = Vec::new();
    for rule in [0, 1] {
        for table in 0..=6 {
            lines.push(place_line(&with(&[(20, rule), (21, table)]), 4, 60));
        }
        for value in CNTT_BOUNDS {
            lines.push(place_line(&with_cntt(&[(20, rule), (21, 0)], value), 4, 60));
            lines.push(place_line(&with_cntt(&[(20, rule), (21, 4)], value), 4, 60));
        }
        for value in CNTT_VALUES {
            lines.push(place_line(&with_cntt(&[(20, rule)], value), 7, 61));
        }
    }
    for table in [0, 4] {
        let narrow = [(20, 1), (21, table), (23, 60), (24, 63)];
        lines.push(place_line(&with(&narrow), 4, 72));
        lines.push(place_line(&with(&narrow), 4, 40));
        lines.push(place_line(&with_cntt(&narrow, 0x80), 4, 59));
        lines.push(place_line(&with_cntt(&narrow, 0x84), 4, 59));
    }
    lines
}

/// Wide, four-key, one-key and crossed limits, and values at and beside each limit.
fn place_limits() -> Vec<Line> {
    let mut lines = Vec::new();
    let pairs = [
        (0, 127),
        (60, 74),
        (60, 71),
        (60, 70),
        (60, 65),
        (60, 63),
        (60, 60),
        (127, 127),
        (0, 0),
        (0, 11),
        (116, 127),
        (117, 127),
        (64, 63),
        (127, 0),
    ];
    for (low, high) in pairs {
        let record = with(&[(22, 0), (23, low), (24, high)]);
        for note in [
            0, 7, 8, 11, 12, 53, 54, 59, 60, 63, 65, 66, 74, 75, 84, 126, 127,
        ] {
            lines.push(place_line(&record, 0, note));
        }
        for root in [1, 11] {
            lines.push(place_line(&record, root, 0));
            lines.push(place_line(&record, root, 127));
        }
    }
    lines
}

/// High keys at and around every chord root; source roots above it, so that values are
/// negative.
fn place_keys(dice: &mut Dice) -> Vec<Line> {
    let mut lines = Vec::new();
    for root in 0..12u8 {
        for key in [root.saturating_sub(1), root, (root + 1).min(11)] {
            lines.push(place_line(&with(&[(22, key)]), root, 60));
        }
        let source = 11 - dice.below(3) as u8;
        let low = dice.below(40) as u8;
        for note in [0, 5, 11, 12, 22, 23] {
            let record = with(&[(18, source), (22, 0), (23, low), (24, low + 12)]);
            lines.push(place_line(&record, root, note));
        }
        lines.push(place_line(&with(&[(18, source), (22, 0)]), root, 3));
        lines.push(place_line(&with(&[(18, 11), (22, 11), (24, 5)]), root, 1));
    }
    lines
}

pub fn screen_line(record: &Record, index: u64, value: u8) -> Line {
    format!("screen {} {index} {value}", rec(record)).into()
}

pub fn screen(dice: &mut Dice) -> Vec<Line> {
    let line = screen_line;
    let mut lines = Vec::new();
    for index in [26, 27, 255, 256, 65_536, 4_294_967_295] {
        for value in [0, 255] {
            lines.push(line(&plain(3), index, value));
        }
    }
    let broken = Record::First(First {
        bytes: [0xEE; FIELDS],
        second_table: Some(0xEE),
        position: 0xEE,
    });
    for (index, &(low, _)) in RANGES[..FIELDS].iter().enumerate() {
        for value in bounds(index) {
            let position = some_position(dice);
            let record = at_position(unlocked(record(dice, 3)), position);
            lines.push(line(&record, index as u64, value));
        }
        lines.push(line(&broken, index as u64, low));
        lines.push(line(&broken, index as u64, 0xEE));
    }
    for value in CNTT_BOUNDS {
        lines.push(line(&with_cntt(&[], 0x84), 21, value));
    }
    lines.extend(locks::screen(&mut dice.aside()));
    lines.extend(ctb2_lines::screen(dice));
    for position in ANY_POSITION {
        for (index, value) in [(0, 7), (21, 4), (21, 6), (25, 5), (26, 0)] {
            for record in [plain(3), with_cntt(&[], 0x84)] {
                lines.push(line(&at_position(record, position), index, value));
            }
        }
    }
    lines
}

pub fn write(dice: &mut Dice) -> Vec<Line> {
    let mut three = [plain(4), record(dice, 0), record(dice, 15)];
    number(dice, &mut three, Order::Ctabs);
    let mut lines = Vec::new();
    for count in 0..=4 {
        let length = group_bytes(b"Main A", &three[..count.min(3)]).len();
        for room in [length, length - 1, length + 1, 0, 2_048] {
            lines.push(write_line(b"Main A", count as u64, room, &three));
        }
    }
    lines.extend(write_texts());
    lines.extend(write_orders());
    lines.extend(ctb2_lines::write(dice));
    lines.extend(positions::write(dice));
    lines.extend(write_bytes(dice));
    lines.extend(write_counts(dice));
    lines
}

/// Texts at their limits and past them.
fn write_texts() -> Vec<Line> {
    let mut texts = principal_texts();
    texts.extend(further_texts());
    texts.extend([255, 254, 1, 15].map(long_text));
    texts.push(b"Sixteen letters.".to_vec());
    texts.push(b"CSEG,Ctab".to_vec());
    texts.push(seg_text());
    texts
        .iter()
        .map(|text| write_line(text, 1, 400, &[plain(2)]))
        .collect()
}

/// 16 before 8 before 9, record by record 9 before 10, all before 14; past the count nothing.
fn write_orders() -> Vec<Line> {
    let good = b"Main A";
    let bad_record = with(&[(9, 0)]);
    let bad_cntt = with_cntt(&[], 0x05);
    let pair = [plain(3), plain(3)];
    vec![
        write_line(b"", 2, 0, &[bad_record]),
        write_line(b"", 1, 0, &[bad_record]),
        write_line(good, 1, 0, &[bad_record]),
        write_line(good, 1, 0, &[bad_cntt]),
        write_line(good, 1, 0, &[with_cntt(&[(22, 12)], 0x05)]),
        write_line(good, 1, 0, &[with_cntt(&[(20, 2)], 0x05)]),
        write_line(good, 1, 0, &[with_cntt(&[(21, 6)], 0x05)]),
        write_line(good, 2, 0, &pair),
        write_line(good, 2, 500, &[plain(3), with(&[(25, 6)])]),
        write_line(good, 3, 500, &[plain(3), plain(3), bad_record]),
        write_line(good, 3, 500, &[plain(1), bad_record, plain(1)]),
        write_line(good, 3, 500, &[plain(1), plain(2), plain(1)]),
        write_line(good, 1, 500, &[plain(3), bad_record]),
        write_line(good, 1, 500, &pair),
        write_line(good, 0, 22, &[bad_record]),
        write_line(good, 0, 21, &[bad_record]),
        write_line(good, 0, 22, &[]),
        write_line(good, 1, 22, &[]),
        write_line(b",", 4_294_967_295, 22, &pair),
        write_line(good, 4_294_967_295, 22, &pair),
    ]
}

/// Each byte out of range, in the first, a middle and the last record, and at its bounds.
fn write_bytes(dice: &mut Dice) -> Vec<Line> {
    let mut lines = Vec::new();
    let mut put = |row: usize, change: &dyn Fn(&mut Record)| {
        let mut three = [plain(1), record(dice, 9), plain(14)];
        change(&mut three[row % 3]);
        number_somehow(dice, &mut three);
        lines.push(write_line(b"Main A", 3, 300, &three));
    };
    for (index, &(_, high)) in RANGES[..FIELDS].iter().enumerate() {
        for (turn, value) in bounds(index).into_iter().enumerate() {
            put(index + turn, &|record| record[index] = value);
        }
        if let Some(above) = high.checked_add(1) {
            for number in 0..3 {
                put(number, &|record| record[index] = above);
            }
        }
    }
    for (turn, value) in CNTT_BOUNDS.into_iter().enumerate() {
        put(turn, &|record| {
            *record = cntts::with_cntt(*record, Some(value))
        });
    }
    lines
}

/// Sixteen records and more, and tables of up to 32.
fn write_counts(dice: &mut Dice) -> Vec<Line> {
    let sixteen = records(dice, 16);
    let mut lines = Vec::new();
    let length = group_bytes(&long_text(255), &sixteen).len();
    for room in [length - 1, length, length + 1, 2_048] {
        lines.push(write_line(&long_text(255), 16, room, &sixteen));
    }
    for last in [0x10, 0x07] {
        let mut seventeen = sixteen.clone();
        seventeen.push(plain(last));
        lines.push(write_line(b"A", 17, 2_048, &seventeen));
        lines.push(write_line(b"A", 16, 2_048, &seventeen));
    }
    let mut many = sixteen.clone();
    many.extend(records(dice, 16));
    for count in [16, 17, 31, 32, 33] {
        lines.push(write_line(b"A", count, 2_048, &many));
    }
    lines
}
