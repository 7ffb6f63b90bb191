//! The two editions of a channel record, and what a chunk of each is: document 01's Ctab, and
//! document 02, §4: "Instruments since 2008 write Ctb2 (43 74 62 32H), 47 bytes".

use crate::bytes::{Tag, CTAB, CTB2};

/// Bytes of a Ctab and of a Ctb2 in a body.
pub const CTAB_BYTES: usize = 27;
pub const CTB2_BYTES: usize = 47;

/// Bytes of a first-edition record that are kept in memory; byte 26 is always written as 00.
pub const FIELDS: usize = 26;

#[derive(Clone, Copy, Debug, PartialEq, Eq, PartialOrd, Ord)]
pub enum Edition {
    First,
    Second,
}

impl Edition {
    /// The tag of a record's chunk.
    pub fn tag(self) -> Tag {
        match self {
            Edition::First => CTAB,
            Edition::Second => CTB2,
        }
    }

    /// Bytes of a record's chunk in a body.
    pub fn size(self) -> usize {
        match self {
            Edition::First => CTAB_BYTES,
            Edition::Second => CTB2_BYTES,
        }
    }

    /// Bytes of a record in memory, which the screen's index runs over: 0-25, or 0-46.
    pub fn fields(self) -> usize {
        match self {
            Edition::First => FIELDS,
            Edition::Second => CTB2_BYTES,
        }
    }
}
