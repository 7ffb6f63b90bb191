//! Sound things by chance: names, texts, records, groups, bodies and style files, with the
//! rare but sound settings of "Easy errors" among them.

use crate::edition::{Edition, FIELDS};
use crate::gen::cntts::with_cntt;
use crate::gen::ctb2;
use crate::gen::dice::Dice;
use crate::gen::draft::{Chunk, Draft, StyleDraft};
use crate::gen::positions::number_somehow;
use crate::ranges::RANGES;
use crate::record::{First, Record};
use std::collections::HashSet;

const PARTS: [&str; 18] = [
    "Main A",
    "Main B",
    "Main C",
    "Main D",
    "Intro A",
    "Intro B",
    "Intro C",
    "Ending A",
    "Ending B",
    "Ending C",
    "Fill In AA",
    "Fill In BB",
    "Fill In CC",
    "Fill In DD",
    "Fill In BA",
    "main a",
    "Main A ",
    " ",
];

const ODD_PARTS: [&str; 6] = [
    "CSEG",
    "xCSEGx",
    "Ctab",
    "Sdec",
    "CSECSEG",
    "CntTCnttCSEGCtab",
];

const VOICES: [&[u8]; 12] = [
    b"Piano   ",
    b"FingerBs",
    b"        ",
    b"Std Kit ",
    b" Pad    ",
    b"a b c d ",
    b"CSEG    ",
    b"xCSEGy  ",
    b"    CSEG",
    b"Ctab Sde",
    b"\0\0\0\0\0\0\0\0",
    b"Ctab\0\0\0\x1B",
];

/// The values that a Cntt may have.
pub const CNTT_VALUES: [u8; 17] = [
    0x04, 0x06, 0x07, 0x08, 0x09, 0x0A, 0x80, 0x81, 0x82, 0x83, 0x84, 0x85, 0x86, 0x87, 0x88, 0x89,
    0x8A,
];

/// A part name of 1 to 16 bytes.
pub fn name(dice: &mut Dice) -> Vec<u8> {
    match dice.below(20) {
        0..=13 => dice.pick(&PARTS).as_bytes().to_vec(),
        14 => dice.pick(&ODD_PARTS).as_bytes().to_vec(),
        15 => name_of_length(dice, 16),
        16 | 17 => name_of_length(dice, 1),
        _ => {
            let length = dice.between(2, 15);
            name_of_length(dice, length)
        }
    }
}

fn name_of_length(dice: &mut Dice, length: usize) -> Vec<u8> {
    let mut name = Vec::with_capacity(length);
    while name.len() < length {
        let byte = dice.between(0x20, 0x7E) as u8;
        if byte != b',' {
            name.push(byte);
        }
    }
    name
}

/// A text of so many names, none of them used before.
pub fn text(dice: &mut Dice, names: usize, used: &mut HashSet<Vec<u8>>) -> Vec<u8> {
    let mut text = Vec::new();
    for number in 0..names {
        let mut fresh = name(dice);
        while !used.insert(fresh.clone()) {
            let length = dice.between(3, 9);
            fresh = name_of_length(dice, length);
        }
        if number > 0 {
            text.push(b',');
        }
        text.extend(fresh);
    }
    text
}

/// A text of exactly so many bytes (1 to 255), its names long and none used before.
pub fn text_of_length(dice: &mut Dice, length: usize, used: &mut HashSet<Vec<u8>>) -> Vec<u8> {
    loop {
        let mut text = name_of_length(dice, length);
        for place in (15..length - 1).step_by(16) {
            text[place] = b',';
        }
        let names: Vec<Vec<u8>> = text
            .split(|&byte| byte == b',')
            .map(<[u8]>::to_vec)
            .collect();
        let all: HashSet<Vec<u8>> = names.iter().cloned().collect();
        if all.len() == names.len() && all.is_disjoint(used) {
            used.extend(all);
            return text;
        }
    }
}

/// The record that catalogue lines start from: all in range, plays always, no folding.
pub fn plain(channel: u8) -> Record {
    Record::First(First {
        bytes: [
            channel, b'P', b'i', b'a', b'n', b'o', b' ', b' ', b' ', 0x0B, 0, 0x0F, 0xFF, 0x03,
            0xFF, 0xFF, 0xFF, 0xFF, 0, 2, 0, 1, 11, 0, 127, 3,
        ],
        second_table: None,
        position: 0,
    })
}

/// A sound record by chance; its position is right where it is alone.
pub fn record(dice: &mut Dice, channel: u8) -> Record {
    let mut bytes = [0; FIELDS];
    for (index, byte) in bytes.iter_mut().enumerate() {
        let (low, high) = RANGES[index];
        *byte = dice.between(usize::from(low), usize::from(high)) as u8;
    }
    bytes[0] = channel;
    if dice.percent(80) {
        bytes[1..9].copy_from_slice(dice.pick(&VOICES));
    }
    masks(dice, &mut bytes);
    if let Some((low, high)) = some_limits(dice) {
        bytes[23..25].copy_from_slice(&[low, high]);
    }
    if dice.percent(60) {
        bytes[20] = 0;
    }
    let second_table = if dice.percent(40) {
        Some(dice.pick(&CNTT_VALUES))
    } else {
        None
    };
    Record::First(First {
        bytes,
        second_table,
        position: u8::from(second_table.is_some()),
    })
}

/// Full, empty, nearly empty, one that spells CSEG, or by chance as it stands.
fn masks(dice: &mut Dice, bytes: &mut [u8; FIELDS]) {
    match dice.below(12) {
        0..=2 => bytes[11..18].copy_from_slice(&[0x0F, 0xFF, 0x07, 0xFF, 0xFF, 0xFF, 0xFF]),
        3 => bytes[11..18].copy_from_slice(&[0x0F, 0xFF, 0x03, 0xFF, 0xFF, 0xFF, 0xFF]),
        4 => bytes[11..18].copy_from_slice(&[0; 7]),
        5 => bytes[13..18].copy_from_slice(&[0x04, 0, 0, 0, 0]),
        6 => bytes[13..18].copy_from_slice(&two_types(dice)),
        7 => bytes[13..18].copy_from_slice(b"\x03CSEG"),
        8 => bytes[11..13].copy_from_slice(&(1u16 << dice.below(12)).to_be_bytes()),
        _ => (),
    }
}

/// A chord mask of two chord types only.
fn two_types(dice: &mut Dice) -> [u8; 5] {
    let mask = (1u64 << dice.below(34)) | (1u64 << dice.below(34));
    let bytes = mask.to_be_bytes();
    [bytes[3], bytes[4], bytes[5], bytes[6], bytes[7]]
}

/// Limits that are wide, narrow, of one key or crossed; none to leave them as they stand.
pub fn some_limits(dice: &mut Dice) -> Option<(u8, u8)> {
    let low = dice.below(128);
    let (low, high) = match dice.below(10) {
        0 | 1 => (0, 127),
        2 | 3 => (low, (low + dice.between(9, 24)).min(127)),
        4 => (low, (low + 3).min(127)),
        5 => (low, low),
        6 => (127, 127),
        7 => (low, low.saturating_sub(dice.between(1, 20))),
        _ => return None,
    };
    Some((low as u8, high as u8))
}

/// Every value at a bound of a range, inside and outside.
pub fn bounds(low: u8, high: u8) -> Vec<u8> {
    let mut values = vec![low, high];
    values.extend(low.checked_sub(1));
    values.extend(high.checked_add(1));
    values.push(0xFF);
    values
}

/// So many records of different source channels, at times all with a Cntt; these in some order.
pub fn records(dice: &mut Dice, count: usize) -> Vec<Record> {
    let mut channels: Vec<u8> = (0..16).collect();
    let mut list: Vec<Record> = (0..count.min(16))
        .map(|_| {
            let channel = channels.swap_remove(dice.below(channels.len()));
            record(dice, channel)
        })
        .collect();
    if dice.percent(30) {
        for record in &mut list {
            *record = with_cntt(*record, Some(dice.pick(&CNTT_VALUES)));
        }
    }
    number_somehow(dice, &mut list);
    list
}

/// So many records of an edition.
pub fn records_of(dice: &mut Dice, edition: Edition, count: usize) -> Vec<Record> {
    match edition {
        Edition::First => records(dice, count),
        Edition::Second => ctb2::records(dice, count),
    }
}

/// An edition: more often the first.
pub fn some_edition(dice: &mut Dice) -> Edition {
    if dice.percent(36) {
        Edition::Second
    } else {
        Edition::First
    }
}

/// A group that every fault finds a spot in: three Ctabs and three Cntts, these in some order, or
/// three Ctb2s.
pub fn full_group(dice: &mut Dice, edition: Edition, used: &mut HashSet<Vec<u8>>) -> Draft {
    let names = dice.between(1, 2);
    let text = text(dice, names, used);
    let mut records = records_of(dice, edition, 3);
    for record in &mut records {
        *record = with_cntt(*record, Some(dice.pick(&CNTT_VALUES)));
    }
    number_somehow(dice, &mut records);
    Draft::new(&text, &records)
}

/// A small group beside a faulty one: at most one record.
pub fn small_group(dice: &mut Dice, edition: Edition, used: &mut HashSet<Vec<u8>>) -> Draft {
    let text = text(dice, 1, used);
    let count = dice.below(2);
    Draft::new(&text, &records_of(dice, edition, count))
}

/// A group of the mixture.
pub fn group(dice: &mut Dice, edition: Edition, used: &mut HashSet<Vec<u8>>) -> Draft {
    let count = match dice.below(50) {
        0 => dice.between(4, 16),
        1..=12 => 0,
        13..=30 => 1,
        31..=42 => 2,
        _ => 3,
    };
    let names = match dice.below(30) {
        0 => dice.between(4, 12),
        1..=5 => 2,
        6 => 3,
        _ => 1,
    };
    let text = if dice.below(200) == 0 {
        let length = dice.between(60, 255);
        text_of_length(dice, length, used)
    } else {
        text(dice, names, used)
    };
    Draft::new(&text, &records_of(dice, edition, count))
}

/// A body of the mixture, of one edition.
pub fn body(dice: &mut Dice) -> Vec<Draft> {
    let edition = some_edition(dice);
    body_of(dice, &[edition])
}

/// A body of the mixture, each group of one of these editions.
pub fn body_of(dice: &mut Dice, editions: &[Edition]) -> Vec<Draft> {
    let mut used = HashSet::new();
    let count = match dice.below(200) {
        0 => dice.between(30, 33),
        1..=5 => dice.between(4, 9),
        6..=15 => 0,
        16..=90 => 1,
        91..=150 => 2,
        _ => 3,
    };
    (0..count)
        .map(|_| {
            let edition = dice.pick(editions);
            if count > 9 {
                small_group(dice, edition, &mut used)
            } else {
                group(dice, edition, &mut used)
            }
        })
        .collect()
}

const SECTION_TAGS: [[u8; 4]; 9] = [
    *b"OTSc",
    *b"FNRc",
    *b"MHhd",
    *b"MThd",
    *b"MTrk",
    *b"casm",
    *b"CASM",
    *b"CSEG",
    *b"\0\0\0\0",
];

/// A style file of the mixture; a tag may occur twice.
pub fn style(dice: &mut Dice, casm_body: &[u8]) -> StyleDraft {
    let length = dice.below(6);
    let track: Vec<u8> = (0..length).map(|_| dice.byte()).collect();
    let mut file = StyleDraft::new(&track, &[]);
    for byte in &mut file.head.payload {
        *byte = dice.byte();
    }
    let count = dice.below(4);
    for _ in 0..count {
        let tag = dice.pick(&SECTION_TAGS);
        let length = dice.below(9);
        let payload: Vec<u8> = (0..length).map(|_| dice.byte()).collect();
        file.sections.push(Chunk::new(tag, &payload));
    }
    if dice.percent(85) {
        let place = dice.below(file.sections.len() + 1);
        let casm = Chunk::new(*b"CASM", casm_body);
        file.sections.insert(place, casm);
    }
    file
}
