//! Placing a note by chord root. Follows "Placing a note" and "Placement: 16, 9, 17"; where no
//! octave of the value lies within both limits document 02, §3; and for the second edition §4.

use crate::plays::ROOTS;
use crate::ranges::{
    BASS, GUITAR, HIGHEST_MIDDLE, HIGH_KEY, HIGH_LIMIT, HIGH_SET, LOWEST_MIDDLE, LOW_LIMIT,
    LOW_SET, MIDDLE_SET, ONLY_SET, ROOT_FIXED, RULE, TABLE,
};
use crate::record::{first_bad_byte, Record};
use crate::refusal::{refuse, Answer};

pub const NOTES: u8 = 128;

const SOURCE_ROOT: usize = 18;

/// Tables 00 to 05 where no Cntt stands.
const EFFECTIVE: [u8; 6] = [0x00, 0x01, 0x02, 0x81, 0x03, 0x05];
const BYPASS: u8 = 0x00;
const OCTAVE: i32 = 12;

/// The note that sounds.
pub fn place_note(record: &Record, chord_root: u8, note: u8) -> Answer<u8> {
    if chord_root >= ROOTS || note >= NOTES {
        return refuse(16, 0);
    }
    if let Some(index) = first_bad_byte(record) {
        return refuse(9, index);
    }
    let set = set_of(record, note);
    let table = effective_table(record, set);
    let shift = match record[set + RULE] {
        GUITAR => return refuse(17, 0),
        _ if table == BYPASS || table == BYPASS | BASS => 0,
        ROOT_FIXED => return refuse(17, 0),
        _ => shift(record, set, chord_root),
    };
    Ok(fold(record, set, i32::from(note) + shift))
}

/// Where the set begins that a note uses: "A source note below byte 20 uses the low set, else one
/// above byte 21 the high set, else the middle set."
fn set_of(record: &Record, note: u8) -> usize {
    match record {
        Record::First(_) => ONLY_SET,
        Record::Second(bytes) if note < bytes[LOWEST_MIDDLE] => LOW_SET,
        Record::Second(bytes) if note > bytes[HIGHEST_MIDDLE] => HIGH_SET,
        Record::Second(_) => MIDDLE_SET,
    }
}

/// The Cntt value if present, else by the table; in the second edition "a set's table is its
/// effective table".
fn effective_table(record: &Record, set: usize) -> u8 {
    match record {
        Record::First(first) => match first.second_table {
            Some(value) => value,
            None => EFFECTIVE[usize::from(record[set + TABLE])],
        },
        Record::Second(bytes) => bytes[set + TABLE],
    }
}

/// Chord root minus source root, less 12 when the chord root is above the high key.
fn shift(record: &Record, set: usize, chord_root: u8) -> i32 {
    let shift = i32::from(chord_root) - i32::from(record[SOURCE_ROOT]);
    if chord_root > record[set + HIGH_KEY] {
        shift - OCTAVE
    } else {
        shift
    }
}

/// The value by octaves into the limits: up to the low limit, or down to the high limit. Where
/// this does not end within both, no octave lies there, and the nearest one is the answer.
fn fold(record: &Record, set: usize, value: i32) -> u8 {
    let low = i32::from(record[set + LOW_LIMIT]);
    let high = i32::from(record[set + HIGH_LIMIT]);
    let mut folded = value;
    if value < low {
        while folded < low {
            folded += OCTAVE;
        }
    } else {
        while folded > high {
            folded -= OCTAVE;
        }
    }
    if low <= folded && folded <= high {
        folded as u8
    } else {
        nearest_octave(value, low) as u8
    }
}

/// Document 02, §3: "answer the octave of it within 0 to 127 that is nearest to the low limit, the
/// lower of two equally near. This holds for crossed limits too." Each is looked at, the lowest
/// first, and taken where it is nearer than the one taken before.
fn nearest_octave(value: i32, low: i32) -> i32 {
    let lowest = value.rem_euclid(OCTAVE);
    let mut nearest = lowest;
    let mut octave = lowest;
    while octave < i32::from(NOTES) {
        if (octave - low).abs() < (nearest - low).abs() {
            nearest = octave;
        }
        octave += OCTAVE;
    }
    nearest
}
