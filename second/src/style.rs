//! Finding the CASM body of a style file. Follows "The style file" and, for the order,
//! "Finding the CASM body: 3, 1; per section 2, then 4; then 5, then 3; no group is read".

use crate::bytes::{four, header, number, payload, Tag, CASM, HEADER, MTHD, MTRK};
use crate::refusal::{refuse, Answer};
use std::collections::HashSet;

pub const FILE_LIMIT: usize = 1_048_576;
pub const BODY_LIMIT: usize = 32_768;

/// Bytes of MThd with its six, and of the MTrk header.
pub const SHORTEST: usize = 22;
const MTRK_PLACE: usize = 14;

/// Where the CASM section stands: the place of its tag and the length of its body.
#[derive(Clone, Copy, Debug, PartialEq, Eq)]
pub struct Found {
    pub tag_place: usize,
    pub body_length: usize,
}

impl Found {
    /// Where the body begins, behind tag and length.
    pub fn body_place(&self) -> usize {
        self.tag_place + HEADER
    }

    /// The body among the bytes of its file.
    pub fn body<'a>(&self, file: &'a [u8]) -> &'a [u8] {
        let start = self.body_place();
        &file[start..start + self.body_length]
    }
}

/// The CASM section of a style file.
pub fn find(file: &[u8]) -> Answer<Found> {
    if file.len() > FILE_LIMIT {
        return refuse(3, 0);
    }
    let Some(sections) = sections_place(file) else {
        return refuse(1, 0);
    };
    let Some(found) = walk(file, sections)? else {
        return refuse(5, file.len());
    };
    if found.body_length > BODY_LIMIT {
        return refuse(3, found.tag_place);
    }
    Ok(found)
}

/// Where the sections begin, after a sound MThd and MTrk.
fn sections_place(file: &[u8]) -> Option<usize> {
    if file.len() < SHORTEST || four(file, 0) != MTHD || number(&file[4..8]) != 6 {
        return None;
    }
    if four(file, MTRK_PLACE) != MTRK {
        return None;
    }
    let track = number(&file[18..22]);
    if track > (file.len() - SHORTEST) as u64 {
        return None;
    }
    Some(SHORTEST + track as usize)
}

/// Every section up to the file's end, and the CASM among them.
fn walk(file: &[u8], sections: usize) -> Answer<Option<Found>> {
    let mut seen: HashSet<Tag> = HashSet::new();
    let mut found = None;
    let mut place = sections;
    while place < file.len() {
        let section = header(file, place)?;
        let length = payload(file, section)?.len();
        if !seen.insert(section.tag) {
            return refuse(4, place);
        }
        if section.tag == CASM {
            found = Some(Found {
                tag_place: place,
                body_length: length,
            });
        }
        place += HEADER + length;
    }
    Ok(found)
}
