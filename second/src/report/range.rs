//! The detail of refusal 9: which byte it is, what stands there and what may.

use crate::bytes::{CNTT, CTB2, HEADER};
use crate::edition::Edition;
use crate::ranges::{allowed, Allowed, BASS, GUITAR, HIGHEST_GUITAR_TABLE, HIGHEST_TABLE};
use crate::report::words::field;

/// The byte of an index of a chunk, whose tag and length stand before it.
pub fn out_of_range(chunk: &[u8], index: usize) -> String {
    let payload = &chunk[HEADER..];
    let (tag, name, may) = if chunk.starts_with(&CNTT) {
        let (name, may) = of_cntt(index);
        ("Cntt", name.to_string(), may.to_string())
    } else if chunk.starts_with(&CTB2) {
        let may = of_record(Edition::Second, payload, index);
        ("Ctb2", field(Edition::Second, index), may)
    } else {
        let may = of_record(Edition::First, payload, index);
        ("Ctab", field(Edition::First, index), may)
    };
    let value = payload[index];
    format!("{name} is {value:02X}H (byte {index} of a {tag}), allowed is {may}")
}

/// The two bytes of a Cntt.
fn of_cntt(index: usize) -> (&'static str, &'static str) {
    match index {
        0 => ("source channel", "00H-0FH"),
        _ => ("second table", "04H, 06H-0AH or 80H-8AH"),
    }
}

fn of_record(edition: Edition, payload: &[u8], index: usize) -> String {
    match allowed(edition, index) {
        Allowed::Within(only, highest) if only == highest => format!("{only:02X}H"),
        Allowed::Within(lowest, highest) => format!("{lowest:02X}H-{highest:02X}H"),
        Allowed::Table => {
            let highest = match payload[index - 1] {
                GUITAR => HIGHEST_GUITAR_TABLE,
                _ => HIGHEST_TABLE,
            };
            format!("00H-{highest:02X}H or {BASS:02X}H-{:02X}H", BASS | highest)
        }
    }
}
