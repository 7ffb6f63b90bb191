//! A section of a style file by the place of its tag, the leading MThd and MTrk too. Of document 01
//! only refusal 2 is asked: "fewer than 8 bytes for a chunk header, or its length past its parent",
//! place "its tag". No limit, no tag and nothing before the place is judged.

use crate::bytes::{header, payload};
use crate::refusal::{refuse, Answer};

/// The length that stands behind the tag at a place, the file being its parent.
pub fn section(file: &[u8], at: u32) -> Answer<usize> {
    let place = at as usize;
    if place > file.len() {
        return refuse(2, place);
    }
    let found = header(file, place)?;
    Ok(payload(file, found)?.len())
}
