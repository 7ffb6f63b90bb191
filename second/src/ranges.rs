//! What may stand at each byte of a record: "The ranges of the 27 bytes stand in one table", which
//! the reader, the writer, the screen and placement share, and document 02, §4, for the 47 of the
//! second edition: "Bytes 0-19 are as before".

use crate::edition::{Edition, CTAB_BYTES};

const ANY: (u8, u8) = (0x00, 0xFF);

/// The lowest and highest value of each of the 27 bytes.
pub const RANGES: [(u8, u8); CTAB_BYTES] = [
    (0x00, 0x0F), // 0 source channel
    ANY,          // 1-8 voice name
    ANY,
    ANY,
    ANY,
    ANY,
    ANY,
    ANY,
    ANY,
    (0x08, 0x0F), // 9 destination channel
    (0x00, 0x01), // 10 editable, read only
    (0x00, 0x0F), // 11-12 root mask
    ANY,
    (0x00, 0x07), // 13-17 chord mask
    ANY,
    ANY,
    ANY,
    ANY,
    (0x00, 0x0B), // 18 source root
    (0x00, 0x21), // 19 source chord type
    (0x00, 0x01), // 20 transposition rule
    (0x00, 0x05), // 21 table
    (0x00, 0x0B), // 22 high key
    (0x00, 0x7F), // 23 note low limit
    (0x00, 0x7F), // 24 note high limit
    (0x00, 0x05), // 25 retrigger rule
    (0x00, 0x00), // 26 end marker
];

/// Bytes 0-19, which both editions share.
pub const SHARED: usize = 20;

/// A set's six bytes, counted from where it begins.
pub const SET_BYTES: usize = 6;
pub const RULE: usize = 0;
pub const TABLE: usize = 1;
pub const HIGH_KEY: usize = 2;
pub const LOW_LIMIT: usize = 3;
pub const HIGH_LIMIT: usize = 4;

/// Where the first edition's one set begins: its bytes 20-25 are the same six.
pub const ONLY_SET: usize = 20;

/// The second edition's bytes behind the shared ones: "20 and 21 bound the middle notes"; then
/// "rule, table, high key, low limit, high limit, retrigger for low, middle and high notes".
pub const LOWEST_MIDDLE: usize = 20;
pub const HIGHEST_MIDDLE: usize = 21;
pub const LOW_SET: usize = 22;
pub const MIDDLE_SET: usize = 28;
pub const HIGH_SET: usize = 34;

/// "40-46 are unexplained and kept, all values allowed".
pub const TAIL: usize = 40;

/// The rules of the second edition: root transposition, root fixed and guitar (000, 4.6.3.6).
pub const ROOT_FIXED: u8 = 1;
pub const GUITAR: u8 = 2;
const RULES: (u8, u8) = (0x00, GUITAR);

/// The highest table, and the highest under rule 2; bit 7 stands for bass.
pub const HIGHEST_TABLE: u8 = 0x0A;
pub const HIGHEST_GUITAR_TABLE: u8 = 0x02;
pub const BASS: u8 = 0x80;

/// What may stand at a byte: a value of a range, or a set's table, which its rule decides.
#[derive(Clone, Copy, Debug, PartialEq, Eq)]
pub enum Allowed {
    Within(u8, u8),
    Table,
}

/// What may stand at a byte index of an edition.
pub fn allowed(edition: Edition, index: usize) -> Allowed {
    let (lowest, highest) = match (edition, index) {
        (Edition::First, _) | (_, ..SHARED) => RANGES[index],
        (_, LOWEST_MIDDLE | HIGHEST_MIDDLE) => RANGES[ONLY_SET + LOW_LIMIT],
        (_, TAIL..) => ANY,
        _ => match (index - LOW_SET) % SET_BYTES {
            RULE => RULES,
            TABLE => return Allowed::Table,
            field => RANGES[ONLY_SET + field],
        },
    };
    Allowed::Within(lowest, highest)
}

/// "Table is 00-0A, or 00-02 under rule 2, each with or without bit 7 for bass"; of the rule on
/// the screen: "over 2 counts as 0".
pub fn table_sound(rule: u8, table: u8) -> bool {
    let highest = match rule {
        GUITAR => HIGHEST_GUITAR_TABLE,
        _ => HIGHEST_TABLE,
    };
    table & !BASS <= highest
}

/// Whether a value may stand at a byte of a record that has these bytes; only a set's table asks
/// for another one, the rule right before it.
pub fn may_stand(edition: Edition, bytes: &[u8], index: usize, value: u8) -> bool {
    match allowed(edition, index) {
        Allowed::Within(lowest, highest) => lowest <= value && value <= highest,
        Allowed::Table => table_sound(bytes[index - 1], value),
    }
}

/// The first byte out of range, of bytes that begin a record's chunk.
pub fn first_out_of_range(edition: Edition, bytes: &[u8]) -> Option<usize> {
    (0..bytes.len()).find(|&index| !may_stand(edition, bytes, index, bytes[index]))
}
