//! The program `list`: "finds and salvages the CASM body of a file of at most 65,536 bytes
//! from standard input (more: "refused 3 0"), with room for 8,192 entries".

use crate::refusal::{refuse, Answer};
use crate::salvage::{salvage, Entry};
use crate::style::find;
use std::fmt::Write;

pub const LIST_LIMIT: usize = 65_536;
pub const LIST_ROOM: usize = 8_192;

/// What `list` prints for a style file.
pub fn list(file: &[u8]) -> String {
    match lines(file) {
        Ok(text) => text,
        Err(refusal) => format!("refused {} {}\n", refusal.number, refusal.place),
    }
}

fn lines(file: &[u8]) -> Answer<String> {
    if file.len() > LIST_LIMIT {
        return refuse(3, 0);
    }
    let found = find(file)?;
    let empty = Entry {
        place: 0,
        length: 0,
        kind: 0,
    };
    let mut lent = vec![empty; LIST_ROOM];
    let count = salvage(found.body(file), &mut lent)?;
    let mut text = format!("casm {} {}\n", found.tag_place, found.body_length);
    for entry in &lent[..count] {
        let _ = writeln!(text, "{} {} {}", entry.place, entry.length, entry.kind);
    }
    let _ = writeln!(text, "end {count}");
    Ok(text)
}
