//! A chord as people write it: "A letter A-G, then `#` or `b` or neither (Db is C#), then a type
//! exactly as listed; nothing or `Maj` is Maj".

use crate::report::words::TYPES;

/// Root and type of a chord.
pub fn chord(text: &[u8]) -> Option<(u8, u8)> {
    let (letter, rest) = text.split_first()?;
    let natural = match letter {
        b'C' => 0,
        b'D' => 2,
        b'E' => 4,
        b'F' => 5,
        b'G' => 7,
        b'A' => 9,
        b'B' => 11,
        _ => return None,
    };
    let (shift, rest) = match rest.split_first() {
        Some((b'#', rest)) => (1, rest),
        Some((b'b', rest)) => (11, rest),
        _ => (0, rest),
    };
    let named = if rest.is_empty() { b"Maj" } else { rest };
    let chord_type = TYPES.iter().position(|word| word.as_bytes() == named)?;
    Some(((natural + shift) % 12, chord_type as u8))
}
