//! The `screen`, `write` and `edit` lines of the catalogue for second-edition records, and where
//! records of both editions meet (document 02, §4).

use crate::edition::{Edition, CTB2_BYTES, FIELDS};
use crate::gen::asks::{sample_of, NO_CHANNEL, NO_GROUP};
use crate::gen::cntts::at_position;
use crate::gen::ctb2::{bad_pairs, bounds_of, plain, record, records, with, SETS, TABLE_BOUNDS};
use crate::gen::ctb2_bodies::{self, other};
use crate::gen::dice::Dice;
use crate::gen::edits::edit_line;
use crate::gen::faults::long_text;
use crate::gen::locks::unlocked;
use crate::gen::records::screen_line;
use crate::gen::sound;
use crate::gen::spell::{write_line, Line};
use crate::ranges::{allowed, Allowed, GUITAR, RULE, TABLE};
use crate::record::Record;
use crate::write::group_bytes;

const BOTH: [Edition; 2] = [Edition::First, Edition::Second];

/// Rules in range and over 2, which count as 0.
const RULES: [u8; 7] = [0, 1, GUITAR, 3, 0x80, 0x82, 0xFF];

pub fn screen(dice: &mut Dice) -> Vec<Line> {
    let mut lines = Vec::new();
    for index in [46, 47, 48, 255, 256, 65_536, 4_294_967_295] {
        for value in [0, 255] {
            lines.push(screen_line(&plain(3), index, value));
        }
    }
    for index in FIELDS..CTB2_BYTES {
        lines.push(screen_line(&sound::plain(3), index as u64, 0));
    }
    let broken = Record::Second([0xEE; CTB2_BYTES]);
    for index in 0..CTB2_BYTES {
        for value in bounds_of(index) {
            let record = unlocked(record(dice, 3));
            lines.push(screen_line(&record, index as u64, value));
        }
        lines.push(screen_line(&broken, index as u64, 0x08));
        lines.push(screen_line(&broken, index as u64, 0xEE));
    }
    for set in SETS {
        for rule in RULES {
            let mut ruled = broken;
            ruled[set + RULE] = rule;
            for table in TABLE_BOUNDS {
                lines.push(screen_line(&ruled, (set + TABLE) as u64, table));
            }
        }
        for table in [0x0A, 0x83, 0xEE] {
            let tabled = with(&[(set + TABLE, table)]);
            for rule in [GUITAR, 3] {
                lines.push(screen_line(&tabled, set as u64, rule));
            }
        }
    }
    lines
}

pub fn write(dice: &mut Dice) -> Vec<Line> {
    let three = [plain(4), record(dice, 0), record(dice, 15)];
    let mut lines = Vec::new();
    for count in 0..=4 {
        let length = group_bytes(b"Main A", &three[..count.min(3)]).len();
        for room in [length, length - 1, length + 1] {
            lines.push(write_line(b"Main A", count as u64, room, &three));
        }
    }
    for own in BOTH {
        lines.extend(write_editions(own));
    }
    lines.extend(write_orders());
    lines.extend(write_bytes(dice));
    lines.extend(write_counts(dice));
    lines
}

/// A record unlike the first in edition, where it meets each other refusal of writing: after 16, 8
/// and an earlier record's 9 and 10, before its own 9 and 10, a later record's, 18 and 14; and past
/// the count.
fn write_editions(own: Edition) -> Vec<Line> {
    let like = |channel: u8| ctb2_bodies::plain(own, channel);
    let unlike = |channel: u8| ctb2_bodies::plain(other(own), channel);
    let bad = |mut record: Record| {
        record[9] = 0;
        record
    };
    let tables = [
        vec![like(1), unlike(2)],
        vec![like(1), like(2), unlike(3)],
        vec![like(1), unlike(2), like(3)],
        vec![like(1), unlike(2), unlike(3)],
        vec![like(1), bad(unlike(2))],
        vec![like(1), unlike(1)],
        vec![bad(like(1)), unlike(2)],
        vec![like(1), bad(like(2)), unlike(3)],
        vec![like(1), like(1), unlike(3)],
        vec![like(1), unlike(2), bad(like(3))],
        vec![like(1), unlike(2), like(1)],
        vec![like(1), like(2), like(3), unlike(4)],
        vec![like(1), bad(unlike(1)), unlike(2)],
    ];
    let mut lines = Vec::new();
    for table in &tables {
        let count = table.len() as u64;
        lines.push(write_line(b"Main A", count, 500, table));
        lines.push(write_line(b"Main A", count, 0, table));
    }
    let mixed = &tables[1];
    let length = group_bytes(b"Main A", &mixed[..2]).len();
    lines.extend([
        write_line(b"", 3, 0, mixed),
        write_line(b",", 4, 0, mixed),
        write_line(b"Main A", 4, 500, mixed),
        write_line(b"Main A", 2, length, mixed),
        write_line(b"Main A", 2, length - 1, mixed),
        write_line(b"Main A", 1, length, mixed),
        write_line(b"Main A", 0, 22, mixed),
    ]);
    let misplaced = [at_position(like(1), 7), unlike(2)];
    for count in [1, 2] {
        lines.push(write_line(b"Main A", count, 100, &misplaced));
    }
    let misplaced_later = [like(1), at_position(unlike(2), 7)];
    for count in [1, 2] {
        lines.push(write_line(b"Main A", count, 100, &misplaced_later));
    }
    lines
}

/// Between second-edition records and inside one, as in a body.
fn write_orders() -> Vec<Line> {
    let good = b"Main A";
    let bad = with(&[(39, 6)]);
    vec![
        write_line(b"", 2, 0, &[bad]),
        write_line(b"", 1, 0, &[bad]),
        write_line(good, 1, 0, &[bad]),
        write_line(good, 2, 0, &[plain(3), plain(3)]),
        write_line(good, 2, 500, &[plain(3), bad]),
        write_line(good, 3, 500, &[plain(3), plain(3), bad]),
        write_line(good, 3, 500, &[plain(1), bad, plain(1)]),
        write_line(good, 3, 500, &[plain(1), plain(2), plain(1)]),
        write_line(good, 1, 500, &[plain(3), bad]),
        write_line(good, 1, 500, &[with(&[(22, 3), (23, 0x0B)])]),
        write_line(good, 1, 500, &[with(&[(22, 2), (29, 0x0A)])]),
        write_line(good, 1, 500, &[with(&[(28, 2), (23, 0x8A), (35, 0x03)])]),
        write_line(good, 1, 500, &[with(&[(34, 2), (35, 0x8A), (39, 6)])]),
        write_line(good, 0, 22, &[bad]),
        write_line(good, 0, 21, &[bad]),
    ]
}

/// Each byte at and outside the bounds of its range, in the first, a middle and the last record;
/// each table under each rule.
fn write_bytes(dice: &mut Dice) -> Vec<Line> {
    let mut lines = Vec::new();
    let mut put = |row: usize, changes: &[(usize, u8)]| {
        let mut three = [plain(1), record(dice, 9), plain(14)];
        for &(index, value) in changes {
            three[row % 3][index] = value;
        }
        lines.push(write_line(b"Main A", 3, 300, &three));
    };
    for (row, pair) in bad_pairs().iter().enumerate() {
        put(row, pair);
    }
    for index in 0..CTB2_BYTES {
        match allowed(Edition::Second, index) {
            Allowed::Table => {
                for row in 0..3 {
                    for (rule, table) in [(0, 0x0A), (1, 0x8B), (GUITAR, 0x02), (GUITAR, 0x83)] {
                        put(row, &[(index - 1, rule), (index, table)]);
                    }
                }
            }
            Allowed::Within(_, high) => {
                let values = bounds_of(index).into_iter().enumerate();
                values.for_each(|(turn, value)| put(index + turn, &[(index, value)]));
                if let Some(above) = high.checked_add(1) {
                    (0..3).for_each(|row| put(row, &[(index, above)]));
                }
            }
        }
    }
    lines
}

/// Sixteen records and more, with just enough room and with one byte less.
fn write_counts(dice: &mut Dice) -> Vec<Line> {
    let sixteen = records(dice, 16);
    let length = group_bytes(&long_text(255), &sixteen).len();
    let mut lines: Vec<Line> = [length - 1, length, length + 1, 2_048]
        .map(|room| write_line(&long_text(255), 16, room, &sixteen))
        .into();
    for last in [plain(0x10), plain(0x07), sound::plain(0x07)] {
        let mut seventeen = sixteen.clone();
        seventeen.push(last);
        lines.push(write_line(b"A", 17, 2_048, &seventeen));
        lines.push(write_line(b"A", 16, 2_048, &seventeen));
    }
    lines
}

pub fn edit(dice: &mut Dice) -> Vec<Line> {
    let mut lines = Vec::new();
    for own in BOTH {
        lines.extend(edit_editions(dice, own));
    }
    let sample = sample_of(dice, Edition::Second);
    for index in 0..CTB2_BYTES {
        for value in bounds_of(index) {
            let mut new = plain(4);
            new[index] = value;
            lines.push(edit_line(&sample, 0, 4, &new));
        }
    }
    for pair in bad_pairs() {
        let mut new = with(&pair);
        new[0] = 4;
        lines.push(edit_line(&sample, 0, 4, &new));
    }
    for set in SETS {
        for table in [0x02, 0x03, 0x0A, 0x82, 0x83] {
            let mut new = plain(4);
            new[set + RULE] = GUITAR;
            new[set + TABLE] = table;
            lines.push(edit_line(&sample, 0, 4, &new));
        }
    }
    lines
}

/// Edits of an edition's body with records of both editions: the body's refusals, 16, 15, source
/// channel 16, 21, 9.
fn edit_editions(dice: &mut Dice, own: Edition) -> Vec<Line> {
    let sample = sample_of(dice, own);
    let mut lines = Vec::new();
    for edition in [own, other(own)] {
        let sound = |channel: u8| ctb2_bodies::plain(edition, channel);
        let bad = |channel: u8| {
            let mut record = sound(channel);
            record[9] = 0;
            record
        };
        for (group, channel) in [(0, 4), (0, 0), (0, 15), (2, 9)] {
            let any = match edition {
                Edition::First => sound::record(dice, channel),
                Edition::Second => record(dice, channel),
            };
            for new in [sound(channel), any, sound(channel ^ 1), bad(channel)] {
                lines.push(edit_line(&sample, group, channel, &new));
            }
            lines.push(edit_line(&sample, group, channel, &bad(channel ^ 1)));
        }
        for channel in NO_CHANNEL {
            lines.push(edit_line(&sample, 0, channel, &sound(channel)));
        }
        lines.push(edit_line(&sample, 1, 4, &sound(4)));
        lines.push(edit_line(&sample, 1, 4, &bad(5)));
        lines.push(edit_line(&sample, NO_GROUP[0], 4, &sound(4)));
        lines.push(edit_line(&sample, NO_GROUP[0], 77, &bad(5)));
        let damaged = &sample[..sample.len() - 1];
        lines.push(edit_line(damaged, 0, 4, &sound(4)));
        lines.push(edit_line(damaged, 99, 77, &bad(5)));
    }
    lines
}
