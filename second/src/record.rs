//! The channel record of either edition. Of the first: bytes 0-25 of a Ctab, its Cntt and that
//! Cntt's position (document 02, §1). Of the second: "These records have no Cntt" (document 02,
//! §4), so all 47 bytes of a Ctb2 and nothing else.

use crate::edition::{Edition, CTB2_BYTES, FIELDS};
use crate::ranges::{first_out_of_range, ONLY_SET, TABLE};
use std::ops::{Index, IndexMut};
use std::slice::SliceIndex;

pub const CNTT_BYTES: usize = 2;

pub const SOURCE_CHANNEL: usize = 0;

/// Byte 10: "00 editable, 01 read only"; it is also the place of 22.
pub const READ_ONLY: usize = 10;
pub const LOCKED: u8 = 0x01;

/// A first-edition record; the second table is absent or the value of its Cntt, the position is
/// the number of its Cntt among those of the group, from 1, "0 for none".
#[derive(Clone, Copy, Debug, PartialEq, Eq)]
pub struct First {
    pub bytes: [u8; FIELDS],
    pub second_table: Option<u8>,
    pub position: u8,
}

/// One channel record in memory.
#[derive(Clone, Copy, Debug, PartialEq, Eq)]
pub enum Record {
    First(First),
    Second([u8; CTB2_BYTES]),
}

/// A byte of the record, or some, by its index in the documents.
impl<I: SliceIndex<[u8]>> Index<I> for Record {
    type Output = I::Output;

    fn index(&self, index: I) -> &I::Output {
        &self.bytes()[index]
    }
}

impl<I: SliceIndex<[u8]>> IndexMut<I> for Record {
    fn index_mut(&mut self, index: I) -> &mut I::Output {
        match self {
            Record::First(first) => &mut first.bytes[index],
            Record::Second(bytes) => &mut bytes[index],
        }
    }
}

impl Record {
    pub fn edition(&self) -> Edition {
        match self {
            Record::First(_) => Edition::First,
            Record::Second(_) => Edition::Second,
        }
    }

    /// Bytes 0-25 of a Ctab, or 0-46 of a Ctb2.
    pub fn bytes(&self) -> &[u8] {
        match self {
            Record::First(first) => &first.bytes,
            Record::Second(bytes) => bytes,
        }
    }

    pub fn source_channel(&self) -> u8 {
        self[SOURCE_CHANNEL]
    }

    pub fn root_mask(&self) -> &[u8] {
        &self[11..13]
    }

    pub fn chord_mask(&self) -> &[u8] {
        &self[13..18]
    }

    /// The value of its Cntt, which only a first-edition record can have.
    pub fn second_table(&self) -> Option<u8> {
        match self {
            Record::First(first) => first.second_table,
            Record::Second(_) => None,
        }
    }
}

/// "A record that has byte 10 = 01" (document 02, §6), of either edition; no other value locks.
pub fn is_locked(bytes: &[u8]) -> bool {
    bytes[READ_ONLY] == LOCKED
}

/// The values of a Cntt: 04, 06 to 0A, or 80 to 8A (H).
pub fn second_table_sound(value: u8) -> bool {
    matches!(value, 0x04 | 0x06..=0x0A | 0x80..=0x8A)
}

/// The first bad byte of a whole record; "a bad Cntt value counts as byte 21".
pub fn first_bad_byte(record: &Record) -> Option<usize> {
    let of_bytes = first_out_of_range(record.edition(), record.bytes());
    let of_cntt = record
        .second_table()
        .filter(|&value| !second_table_sound(value))
        .map(|_| ONLY_SET + TABLE);
    of_bytes.into_iter().chain(of_cntt).min()
}
