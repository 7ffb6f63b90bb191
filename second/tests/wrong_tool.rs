//! Wrong readings of `section`, `entry` and `site`: a script of all three of the length that is
//! compared tells each of them from the right one, which is worked out here once more.
//!
//! Not among them: length bytes that are not there and count otherwise than as 00. Where one is not
//! there the bytes end before the next chunk could begin, so no line can tell.

mod common;

use common::asked::{asked, Asked, ASKING};
use common::readings::readings;
use second::body::read_body;
use second::style::find;

readings! {
    OF_SECTION: 11 [
        SectionFileLimit
        SectionFileFound
        SectionTrueOnesOnly
        SectionLengthOneMore
        SectionHeaderNotCounted
        SectionLowByteFirst
        SectionSumWraps
        SectionPlaceZero
        SectionPlaceOfEnd
        SectionSizeWithHeader
        SectionEmptyRefused
    ]
    OF_ENTRY: 11 [
        EntryStrict
        EntryFewIsCut
        EntryLooseFirst
        EntryNoLimit
        EntryWithoutHeader
        EntryAllBytes
        EntryPlaceZero
        EntryCutAtCseg
        EntryToTheEnd
        EntryFirstEdition
        EntryChildInPiece
    ]
    OF_SITE: 19 [
        SiteGroupLength
        SiteGroupLengthBounds
        SiteChildrenOfAll
        SiteFirstIsOne
        SiteHeadersCounted
        SiteLooseIsAGroup
        SiteAnyCseg
        SiteSumWraps
        SiteLowByteFirst
        SiteTwoLengthBytes
        SiteSixteenFirst
        SiteNoLimit
        SiteEndAllowed
        SiteStrictlyBefore
        SitePayloadPlace
        SiteCutIsRefused
        SiteUnreadRefused
        SiteHeaderOfEight
        SiteGroupInAByte
    ]
}

use Reading::*;

fn refused(number: u8, place: usize) -> String {
    format!("refused {number} {place}")
}

/// A length as a reading has it, by the true one.
fn as_read(length: usize, reading: Reading) -> usize {
    match reading {
        SectionLowByteFirst | SiteLowByteFirst => (length as u32).swap_bytes() as usize,
        SiteTwoLengthBytes => length & 0xFFFF,
        _ => length,
    }
}

/// The places of a file's chunks by their lengths, as far as they stand within it.
fn true_ones(line: &Asked) -> Vec<usize> {
    let mut places = Vec::new();
    let mut place = 0;
    while place + 8 <= line.bytes.len() {
        places.push(place);
        place += 8 + line.length_at(place + 4);
    }
    places
}

fn section(line: &Asked, reading: Reading) -> String {
    let (at, end) = (line.place, line.bytes.len());
    match reading {
        SectionFileLimit if end > 1_048_576 => return refused(3, 0),
        SectionTrueOnesOnly if !true_ones(line).contains(&at) => return refused(2, at),
        SectionFileFound => {
            if let Err(refusal) = find(&line.bytes) {
                return refused(refusal.number, refusal.place);
            }
        }
        _ => (),
    }
    let place = match reading {
        SectionPlaceZero => 0,
        SectionPlaceOfEnd => at.min(end),
        _ => at,
    };
    if at + 8 > end {
        return refused(2, place);
    }
    let length = as_read(line.length_at(at + 4), reading);
    let behind = match reading {
        SectionLengthOneMore => at + 7 + length,
        SectionHeaderNotCounted => at + length,
        SectionSumWraps => (at + 8 + length) & 0xFFFF_FFFF,
        SectionEmptyRefused if length == 0 => end + 1,
        _ => at + 8 + length,
    };
    match reading {
        _ if behind > end => refused(2, place),
        SectionSizeWithHeader => format!("ok {}", 8 + length),
        _ => format!("ok {length}"),
    }
}

/// The first CSEG behind the first byte, or the end.
fn first_cut(bytes: &[u8]) -> usize {
    let found = bytes.windows(4).skip(1).position(|four| four == b"CSEG");
    found.map_or(bytes.len(), |place| place + 1)
}

fn entry(line: &Asked, reading: Reading) -> String {
    let bytes = &line.bytes[..];
    let is_group = bytes.starts_with(b"CSEG");
    if bytes.len() > 32_768 && reading != EntryNoLimit {
        return match reading {
            EntryLooseFirst if !is_group => refused(6, 0),
            _ => refused(3, 0),
        };
    }
    if !is_group {
        return match reading {
            EntryFewIsCut if bytes.len() < 8 => refused(2, 0),
            _ => refused(6, 0),
        };
    }
    let bytes = match reading {
        EntryCutAtCseg => &bytes[..first_cut(bytes)],
        _ => bytes,
    };
    let size = 8 + line.length_at(4);
    if bytes.len() < size {
        return refused(2, 0);
    }
    let group = match reading {
        EntryStrict => bytes,
        _ => &bytes[..size],
    };
    let place = |place: usize| match reading {
        EntryPlaceZero => 0,
        _ => place,
    };
    match (reading, read_body(group)) {
        (EntryChildInPiece, Err(refusal))
            if refusal.number == 2
                && refusal.place + 8 + line.length_at(refusal.place + 4) <= bytes.len() =>
        {
            "no 2 there".to_string()
        }
        (_, Err(refusal)) => refused(refusal.number, place(refusal.place)),
        (EntryToTheEnd, _) if bytes.len() > size => refused(6, size),
        (EntryFirstEdition, Ok(groups))
            if groups[0]
                .records
                .iter()
                .any(|placed| placed.record.bytes().len() == 47) =>
        {
            refused(6, groups[0].records[0].place - 8)
        }
        (EntryWithoutHeader, _) => format!("ok {}", size - 8),
        (EntryAllBytes, _) => format!("ok {}", bytes.len()),
        _ => format!("ok {size}"),
    }
}

/// Whether a chunk at a place is a group's header.
fn is_header(bytes: &[u8], place: usize, reading: Reading) -> bool {
    let whole = reading != SiteHeaderOfEight || place + 8 <= bytes.len();
    whole && bytes[place..].starts_with(b"CSEG")
}

/// The chunks of bytes with whether each is a header, at most so many as there are bytes.
fn walk(line: &Asked, reading: Reading) -> Vec<(usize, bool)> {
    let bytes = &line.bytes;
    let mut list = Vec::new();
    let (mut place, mut group_end) = (0, usize::MAX);
    while place < bytes.len() && list.len() <= bytes.len() {
        let header = is_header(bytes, place, reading);
        list.push((place, header));
        let length = as_read(line.length_at(place + 4), reading);
        let next = match reading {
            _ if header && reading != SiteGroupLength => place + 8,
            SiteSumWraps => (place + 8 + length) & 0xFFFF_FFFF,
            SiteAnyCseg => {
                let next = place + 8 + length;
                let until = bytes.len().min(next + 3);
                next.min(place + first_cut(&bytes[place..until]))
            }
            SiteGroupLengthBounds if place < group_end => (place + 8 + length).min(group_end),
            _ => place + 8 + length,
        };
        if header {
            group_end = place + 8 + length;
        }
        place = next;
    }
    list
}

fn site(line: &Asked, reading: Reading) -> String {
    let (place, end) = (line.place, line.bytes.len());
    let outside = match reading {
        SiteEndAllowed => place > end,
        _ => place >= end,
    };
    if reading == SiteSixteenFirst && outside {
        return refused(16, 0);
    }
    if end > 32_768 && reading != SiteNoLimit {
        return refused(3, 0);
    }
    if outside || end == 0 {
        return refused(16, 0);
    }
    if let (SiteUnreadRefused, Err(refusal)) = (reading, read_body(&line.bytes)) {
        return refused(refusal.number, refusal.place);
    }
    let chunks = walk(line, reading);
    let at_or_before = |chunk: usize| match reading {
        SiteStrictlyBefore => chunk == 0 || chunk < place,
        _ => chunk <= place,
    };
    let count = chunks.iter().filter(|(chunk, _)| at_or_before(*chunk));
    let walked = &chunks[..count.count()];
    let (chunk, _) = walked[walked.len() - 1];
    if reading == SiteCutIsRefused && chunk + 8 > end {
        return refused(2, chunk);
    }
    let headers = walked.iter().filter(|(_, header)| *header).count();
    let last = walked.iter().rposition(|(_, header)| *header);
    let child = match (reading, last) {
        (SiteChildrenOfAll, _) => walked.len() - 1,
        (SiteFirstIsOne, None) => walked.len(),
        _ => walked.len() - 1 - last.unwrap_or(0),
    };
    let group = match reading {
        SiteHeadersCounted => headers,
        SiteLooseIsAGroup if !walked[0].1 => headers,
        SiteGroupInAByte => headers.saturating_sub(1) & 255,
        _ => headers.saturating_sub(1),
    };
    let shown = match reading {
        SitePayloadPlace => chunk + 8,
        _ => chunk,
    };
    format!("ok {group} {child} {shown}")
}

fn by(line: &Asked, reading: Reading) -> String {
    match line.verb {
        "section" => section(line, reading),
        "entry" => entry(line, reading),
        _ => site(line, reading),
    }
}

#[test]
fn wrong_readings_are_told_apart() {
    let lines = asked(&ASKING, 121, 20_000);
    for line in &lines {
        assert_eq!(by(line, Right), line.told);
    }
    let mut counts = Vec::new();
    for (verb, readings) in ASKING.iter().zip([&OF_SECTION[..], &OF_ENTRY, &OF_SITE]) {
        for &reading in readings {
            let of_verb = lines.iter().filter(|line| line.verb == *verb);
            let told = of_verb.filter(|line| by(line, reading) != line.told);
            counts.push((reading, told.count()));
        }
    }
    assert!(counts.iter().all(|(_, lines)| *lines > 2), "{counts:?}");
}
