//! Who plays: "when bit r of the first and bit t of the second are set"; "For a part name,
//! the answer is the source channels of its group that play, in Ctab order".

use crate::body::{number_of_part, read_body};
use crate::bytes::number;
use crate::record::Record;
use crate::refusal::{refuse, Answer};

pub const ROOTS: u8 = 12;
pub const TYPES: u8 = 34;

/// Whether a record plays for a root below 12 and a type below 34.
pub fn plays(record: &Record, root: u8, chord_type: u8) -> bool {
    let root_set = number(record.root_mask()) >> root & 1 == 1;
    let type_set = number(record.chord_mask()) >> chord_type & 1 == 1;
    root_set && type_set
}

/// The source channels of a part's group that play for a chord.
pub fn who_plays(body: &[u8], part: &[u8], root: u8, chord_type: u8) -> Answer<Vec<u8>> {
    let groups = read_body(body)?;
    if root >= ROOTS || chord_type >= TYPES {
        return refuse(16, 0);
    }
    let number = number_of_part(&groups, part)?;
    let records = groups[number].records.iter().map(|placed| &placed.record);
    Ok(records
        .filter(|record| plays(record, root, chord_type))
        .map(Record::source_channel)
        .collect())
}
