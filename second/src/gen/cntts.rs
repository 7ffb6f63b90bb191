//! The Cntt and the position of a first-edition record, set and asked for; a record of the second
//! edition has neither and stays as it is.

use crate::record::{First, Record};

/// The record with this Cntt value, or without one.
pub fn with_cntt(record: Record, second_table: Option<u8>) -> Record {
    match record {
        Record::First(first) => Record::First(First {
            second_table,
            ..first
        }),
        Record::Second(_) => record,
    }
}

/// The record with this position.
pub fn at_position(record: Record, position: u8) -> Record {
    match record {
        Record::First(first) => Record::First(First { position, ..first }),
        Record::Second(_) => record,
    }
}

pub fn has_cntt(record: &Record) -> bool {
    record.second_table().is_some()
}

/// The position of its Cntt, 0 for none.
pub fn position(record: &Record) -> u8 {
    match record {
        Record::First(first) => first.position,
        Record::Second(_) => 0,
    }
}
