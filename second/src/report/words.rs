//! The words for what a record holds. Types in document 01's order; destinations, tables and rules
//! as the tool names them.

use crate::edition::{Edition, CTAB_BYTES, CTB2_BYTES};
use crate::ranges::{BASS, GUITAR, LOW_SET, ONLY_SET, SET_BYTES, TAIL};

pub const ROOTS: [&str; 12] = [
    "C", "C#", "D", "Eb", "E", "F", "F#", "G", "G#", "A", "Bb", "B",
];

pub const TYPES: [&str; 34] = [
    "Maj", "Maj6", "Maj7", "M7#11", "Madd9", "M7(9)", "M6(9)", "aug", "m", "m6", "m7", "m7b5",
    "m(9)", "m7(9)", "m7(11)", "mM7", "mM7(9)", "dim", "dim7", "7", "7sus", "7b5", "7(9)",
    "7(#11)", "7(13)", "7(b9)", "7(b13)", "7(#9)", "M7aug", "7aug", "1+8", "1+5", "sus4", "1+2+5",
];

/// The destination channels from byte 08 on.
pub const DESTINATIONS: [&str; 8] = [
    "Sub-Rhythm",
    "Rhythm",
    "Bass",
    "Chord 1",
    "Chord 2",
    "Pad",
    "Phrase 1",
    "Phrase 2",
];

pub const RULES: [&str; 3] = ["Root Trans", "Root Fixed", "Guitar"];

pub const RETRIGGERS: [&str; 6] = [
    "Stop",
    "Pitch shift",
    "Pitch shift to root",
    "Retrigger",
    "Retrigger to root",
    "Note generator",
];

/// The tables of byte 21 of a Ctab.
const OLD_TABLES: [&str; 6] = [
    "Bypass",
    "Melody",
    "Chord",
    "Bass",
    "Melodic minor",
    "Harmonic minor",
];

const TABLES: [&str; 11] = [
    "Bypass",
    "Melody",
    "Chord",
    "Melodic minor",
    "Melodic minor 5th Var.",
    "Harmonic minor",
    "Harmonic minor 5th Var.",
    "Natural minor",
    "Natural minor 5th Var.",
    "Dorian",
    "Dorian 5th Var.",
];

const GUITAR_TABLES: [&str; 3] = ["All-Purpose", "Stroke", "Arpeggio"];

pub const SETS: [&str; 3] = ["low", "middle", "high"];

const SET_FIELDS: [&str; SET_BYTES] = [
    "rule",
    "table",
    "high key",
    "low limit",
    "high limit",
    "retrigger",
];

/// The word at a sound byte's place in its list.
pub fn word(list: &[&'static str], value: u8) -> &'static str {
    list[usize::from(value)]
}

/// A set's table under its rule, bit 7 for bass; a Cntt's value is read as under rule 0.
pub fn table(rule: u8, value: u8) -> String {
    let tables: &[&str] = match rule {
        GUITAR => &GUITAR_TABLES,
        _ => &TABLES,
    };
    let bass = if value & BASS == 0 { "" } else { " + Bass" };
    format!("{}{bass}", word(tables, value & !BASS))
}

/// The table of a set of an edition's record.
pub fn table_of(edition: Edition, rule: u8, value: u8) -> String {
    match edition {
        Edition::First => word(&OLD_TABLES, value).to_string(),
        Edition::Second => table(rule, value),
    }
}

/// The name of a byte of a record.
pub fn field(edition: Edition, index: usize) -> String {
    const END_MARKER: usize = CTAB_BYTES - 1;
    match (edition, index) {
        (_, 0) => "source channel".to_string(),
        (_, 1..=8) => "voice name".to_string(),
        (_, 9) => "destination channel".to_string(),
        (_, 10) => "lock".to_string(),
        (_, 11..=12) => "root mask".to_string(),
        (_, 13..=17) => "chord mask".to_string(),
        (_, 18) => "source root".to_string(),
        (_, 19) => "source chord type".to_string(),
        (Edition::First, END_MARKER..) => "end marker".to_string(),
        (Edition::First, _) => SET_FIELDS[index - ONLY_SET].to_string(),
        (Edition::Second, 20) => "lowest middle note".to_string(),
        (Edition::Second, 21) => "highest middle note".to_string(),
        (Edition::Second, TAIL..=CTB2_BYTES) => "unexplained".to_string(),
        (Edition::Second, _) => {
            let inside = index - LOW_SET;
            let (set, field) = (inside / SET_BYTES, inside % SET_BYTES);
            format!("{} of the {} notes", SET_FIELDS[field], SETS[set])
        }
    }
}

/// "`all`; `none`; `all but ..` where fewer are left out than held; else the list".
pub fn choice(held: &[&str], every: &[&str]) -> String {
    let left_out: Vec<&str> = every
        .iter()
        .filter(|word| !held.contains(word))
        .copied()
        .collect();
    if left_out.is_empty() {
        "all".to_string()
    } else if held.is_empty() {
        "none".to_string()
    } else if left_out.len() < held.len() {
        format!("all but {}", left_out.join(", "))
    } else {
        held.join(", ")
    }
}
