//! What the tests share: the bytes M and N of document 01, a plain record and a salvage list.
#![allow(dead_code)]

pub mod answered;
pub mod asked;
pub mod checked_bodies;
pub mod checks;
pub mod chunks;
pub mod file_edits;
pub mod note_kinds;
pub mod place_kinds;
pub mod reached;
pub mod readings;

use second::gen::cntts::at_position;
use second::record::{First, Record};
use second::refusal::Refusal;
use second::salvage::{salvage, Entry};

/// Document 01: "0 accepts, at place 0".
pub const REFUSED_NONE: Refusal = Refusal {
    number: 0,
    place: 0,
};

/// M, the 22 bytes of document 01.
pub fn m() -> Vec<u8> {
    vec![
        0x43, 0x53, 0x45, 0x47, 0x00, 0x00, 0x00, 0x0E, 0x53, 0x64, 0x65, 0x63, 0x00, 0x00, 0x00,
        0x06, 0x4D, 0x61, 0x69, 0x6E, 0x20, 0x41,
    ]
}

/// N is M ending in 42H.
pub fn n() -> Vec<u8> {
    let mut bytes = m();
    bytes[21] = 0x42;
    bytes
}

/// A sound record of source channel 3 that plays for every root and type.
pub fn plain_record() -> Record {
    Record::First(First {
        bytes: [
            3, b'P', b'i', b'a', b'n', b'o', b' ', b' ', b' ', 0x0B, 0, 0x0F, 0xFF, 0x03, 0xFF,
            0xFF, 0xFF, 0xFF, 0, 2, 0, 1, 11, 0, 127, 3,
        ],
        second_table: None,
        position: 0,
    })
}

/// A sound second-edition record of source channel 3 that plays for every root and type: middle
/// notes 48 to 72, three sets that differ in their limits, and the usual tail of 000, 4.6.3.7.
pub fn second_record() -> Record {
    let mut bytes = [0; 47];
    bytes[..20].copy_from_slice(&plain_record()[..20]);
    bytes[20..22].copy_from_slice(&[48, 72]);
    bytes[22..28].copy_from_slice(&[0, 1, 11, 0, 59, 3]);
    bytes[28..34].copy_from_slice(&[0, 2, 11, 0, 127, 3]);
    bytes[34..40].copy_from_slice(&[0, 0x83, 11, 72, 127, 3]);
    bytes[40..].copy_from_slice(&[0, 0, 0, 0, 0x80, 0, 0]);
    Record::Second(bytes)
}

/// Gives these positions to the records, one after another.
pub fn at_positions(records: &[Record], positions: &[u8]) -> Vec<Record> {
    assert_eq!(records.len(), positions.len());
    let pairs = records.iter().zip(positions);
    pairs
        .map(|(&record, &position)| at_position(record, position))
        .collect()
}

/// The salvage list of a body, with all the room it can need.
pub fn entries_of(body: &[u8]) -> Vec<(usize, usize, u8)> {
    let mut lent = vec![
        Entry {
            place: 7,
            length: 7,
            kind: 7
        };
        8_192
    ];
    let count = salvage(body, &mut lent).unwrap();
    lent[..count]
        .iter()
        .map(|entry| (entry.place, entry.length, entry.kind))
        .collect()
}
