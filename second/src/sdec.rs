//! The text of an Sdec: "1 to 255 bytes, each 20H to 7EH, cut at commas into names of
//! 1 to 16 bytes, no name twice. Spaces count as written."

use std::collections::HashSet;

pub const TEXT_LIMIT: usize = 255;
pub const NAME_LIMIT: usize = 16;
pub const COMMA: u8 = b',';

/// The names of a text, cut at its commas.
pub fn names(text: &[u8]) -> impl Iterator<Item = &[u8]> {
    text.split(|&byte| byte == COMMA)
}

/// Whether the text keeps every rule on one Sdec.
pub fn text_sound(text: &[u8]) -> bool {
    if text.is_empty() || text.len() > TEXT_LIMIT {
        return false;
    }
    if text.iter().any(|byte| !(0x20..=0x7E).contains(byte)) {
        return false;
    }
    let mut seen = HashSet::new();
    names(text).all(|name| !name.is_empty() && name.len() <= NAME_LIMIT && seen.insert(name))
}
