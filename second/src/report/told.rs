//! A refusal in words: its number and place are the readers', its case and its detail stand in the
//! bytes before and at that place.

use crate::body::read_body;
use crate::bytes::{four, number, CSEG, HEADER};
use crate::edition::Edition;
use crate::group::group_at;
use crate::record::CNTT_BYTES;
use crate::refusal::Refusal;
use crate::report::names::{count, name};
use crate::report::range::out_of_range;
use crate::report::reason::Reason;
use crate::sdec::names;

#[derive(Clone, Debug, PartialEq, Eq)]
pub struct Told {
    pub reason: Reason,
    pub detail: Option<String>,
}

fn plain(reason: Reason) -> Told {
    Told {
        reason,
        detail: None,
    }
}

fn with(reason: Reason, detail: String) -> Told {
    Told {
        reason,
        detail: Some(detail),
    }
}

/// A refusal met in finding the CASM body of a file.
pub fn of_file(file: &[u8], refusal: Refusal) -> Told {
    match refusal.number {
        1 => plain(Reason::NotAStyle),
        2 => past(file, refusal.place, Reason::SectionPast),
        3 => plain(Reason::BodyTooLarge),
        4 => plain(Reason::SecondSection),
        _ => plain(Reason::NoCasm),
    }
}

/// Bytes that belong to no group.
pub fn loose() -> Told {
    plain(Reason::Loose)
}

/// A refusal in groups one after another: a body's, or those of an entry, which begins with one.
/// `too_long` tells what a group's length runs past.
pub fn of_groups(parent: &[u8], refusal: Refusal, too_long: Reason) -> Told {
    let place = refusal.place;
    let group = holder(parent, 0, place);
    if group == place {
        return of_group(parent, refusal, too_long);
    }
    let within = &parent[..group + HEADER + length(parent, group) as usize];
    of_child(within, refusal, holder(within, group + HEADER, place))
}

/// The length that stands behind a tag.
fn length(parent: &[u8], tag: usize) -> u64 {
    number(&four(parent, tag + 4))
}

/// The chunk that has a place, of chunks one after another; all that end before it are sound.
fn holder(parent: &[u8], first: usize, place: usize) -> usize {
    let mut at = first;
    while at != place {
        let next = at + HEADER + length(parent, at) as usize;
        if place < next {
            break;
        }
        at = next;
    }
    at
}

/// A refusal at a group's tag.
fn of_group(parent: &[u8], refusal: Refusal, too_long: Reason) -> Told {
    let place = refusal.place;
    match refusal.number {
        2 => past(parent, place, too_long),
        6 if four(parent, place) == CSEG => plain(Reason::EmptyGroup),
        6 => tag(parent, place),
        12 => plain(Reason::TooManyGroups),
        13 => again(parent, place),
        _ => plain(Reason::OtherEdition),
    }
}

/// A refusal in a group's chunk; its parent ends with the group.
fn of_child(parent: &[u8], refusal: Refusal, chunk: usize) -> Told {
    match refusal.number {
        2 => past(parent, chunk, Reason::ChunkPast),
        6 => tag(parent, chunk),
        7 => own_length(parent, chunk),
        8 => plain(Reason::PartNames),
        9 => with(
            Reason::ByteOut,
            out_of_range(&parent[chunk..], refusal.place - chunk - HEADER),
        ),
        10 => plain(Reason::SecondChunk),
        _ => plain(Reason::NoChannel),
    }
}

/// Refusal 2: the header is cut, or the length runs past the parent.
fn past(parent: &[u8], tag: usize, too_long: Reason) -> Told {
    let left = |bytes: usize| format!("{} left", count(bytes as u64, "byte is", "bytes are"));
    let rest = parent.len() - tag;
    match rest.checked_sub(HEADER) {
        None => with(Reason::CutShort, left(rest)),
        Some(room) => {
            let says = count(length(parent, tag), "byte", "bytes");
            with(too_long, format!("the length says {says}, {}", left(room)))
        }
    }
}

fn tag(parent: &[u8], place: usize) -> Told {
    let shown = name(&four(parent, place));
    with(Reason::TagNotHere, format!("the tag is \"{shown}\""))
}

fn own_length(parent: &[u8], chunk: usize) -> Told {
    let tag = four(parent, chunk);
    let editions = [Edition::First, Edition::Second];
    let wanted = match editions.into_iter().find(|edition| edition.tag() == tag) {
        Some(edition) => edition.size(),
        None => CNTT_BYTES,
    };
    let says = count(length(parent, chunk), "byte", "bytes");
    with(
        Reason::OwnLength,
        format!(
            "the length of this {} says {says}, it must be {wanted}",
            name(&tag)
        ),
    )
}

/// The first of a group's names that an earlier group has.
fn again(body: &[u8], place: usize) -> Told {
    let earlier = read_body(&body[..place]).unwrap_or_default();
    let has = |part: &&[u8]| {
        earlier
            .iter()
            .any(|group| names(group.text).any(|name| name == *part))
    };
    let part = group_at(body, place)
        .ok()
        .and_then(|group| names(group.text).find(has));
    Told {
        reason: Reason::PartAgain,
        detail: part.map(|part| format!("the part is \"{}\"", name(part))),
    }
}
