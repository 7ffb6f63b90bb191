//! The salvage list of a body: "Cut the body at each place where CSEG stands, even inside a
//! name." Order: 3, and 14 last.

use crate::bytes::CSEG;
use crate::group::group_at;
use crate::refusal::{refuse, Answer};
use crate::style::BODY_LIMIT;

/// Kind of a sound group, and kind of loose bytes.
pub const SOUND: u8 = 0;
pub const LOOSE: u8 = 6;

/// One entry of the list; the kind is 0, 6 or the refusal of its piece.
#[derive(Clone, Copy, Debug, PartialEq, Eq)]
pub struct Entry {
    pub place: usize,
    pub length: usize,
    pub kind: u8,
}

/// Lists a body into lent entries and answers their count.
pub fn salvage(body: &[u8], lent: &mut [Entry]) -> Answer<usize> {
    if body.len() > BODY_LIMIT {
        return refuse(3, 0);
    }
    let entries = entries(body);
    if entries.len() > lent.len() {
        return refuse(14, 0);
    }
    lent[..entries.len()].copy_from_slice(&entries);
    Ok(entries.len())
}

/// Every entry of a body, in order.
pub fn entries(body: &[u8]) -> Vec<Entry> {
    let cuts: Vec<usize> = (0..body.len())
        .filter(|&place| body[place..].starts_with(&CSEG))
        .collect();
    let mut entries = Vec::new();
    let first = cuts.first().copied().unwrap_or(body.len());
    push(&mut entries, 0, first, LOOSE);
    for (number, &place) in cuts.iter().enumerate() {
        let end = cuts.get(number + 1).copied().unwrap_or(body.len());
        match group_at(&body[place..end], 0) {
            Ok(group) => {
                push(&mut entries, place, group.length, SOUND);
                let rest = place + group.length;
                push(&mut entries, rest, end - rest, LOOSE);
            }
            Err(refusal) => push(&mut entries, place, end - place, refusal.number),
        }
    }
    entries
}

/// Adds an entry, if it has any bytes.
fn push(entries: &mut Vec<Entry>, place: usize, length: usize, kind: u8) {
    if length > 0 {
        entries.push(Entry {
            place,
            length,
            kind,
        });
    }
}
