//! The chunk that has a place of a body or of an entry, sound or not, by the lengths that stand
//! before it. Order: 3, then 16 for a place that is not among the bytes.

use crate::bytes::{number, CSEG, HEADER};
use crate::refusal::{refuse, Answer};
use crate::style::BODY_LIMIT;

/// The chunk of a place: the number of its group; its own number among the chunks since that
/// group's header, which is 0 itself, or since the first where no header came before; and where it
/// begins.
#[derive(Clone, Copy, Debug, Default, PartialEq, Eq)]
pub struct Site {
    pub group: usize,
    pub child: usize,
    pub chunk: usize,
}

/// Walks from the first byte over the chunks that begin at or before the place.
pub fn site(bytes: &[u8], place: u32) -> Answer<Site> {
    if bytes.len() > BODY_LIMIT {
        return refuse(3, 0);
    }
    let place = place as usize;
    if place >= bytes.len() {
        return refuse(16, 0);
    }
    let mut found = Site::default();
    let (mut headers, mut since) = (0, 0);
    let chunks = beginnings(bytes).take_while(|&chunk| chunk <= place);
    for (number, chunk) in chunks.enumerate() {
        if is_group(bytes, chunk) {
            headers += 1;
            since = number;
        }
        found = Site {
            group: usize::saturating_sub(headers, 1),
            child: number - since,
            chunk,
        };
    }
    Ok(found)
}

/// Whether the four bytes CSEG stand at a place, which makes a chunk there a group's header.
fn is_group(bytes: &[u8], place: usize) -> bool {
    bytes[place..].starts_with(&CSEG)
}

/// Every place of the bytes at which a chunk begins, the first at 0.
pub fn beginnings(bytes: &[u8]) -> impl Iterator<Item = usize> + '_ {
    let within = move |place: usize| (place < bytes.len()).then_some(place);
    std::iter::successors(within(0), move |&place| within(next(bytes, place)))
}

/// Where the chunk behind the one at a place begins: 8 bytes on behind a group's header, whatever
/// its length, else by its length; a length byte that is not there counts as 00.
fn next(bytes: &[u8], place: usize) -> usize {
    if is_group(bytes, place) {
        return place + HEADER;
    }
    let length = [4, 5, 6, 7].map(|index| bytes.get(place + index).copied().unwrap_or(0));
    place + HEADER + number(&length) as usize
}
