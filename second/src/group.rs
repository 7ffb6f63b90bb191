//! One group in its parent. Follows "The CASM body" and "Contents: empty 6; per child header
//! cut 2, tag 6, length past the group 2, own length 7, then 8; or 9, 10; or 9, 10, 11"; document
//! 02, §1, for Cntts: "Accept them in any order"; and §4: "6 for a Ctb2 beside a Ctab or Cntt in a
//! group; 7 when not 47".

use crate::bytes::{header, payload, Header, CNTT, CSEG, CTAB, CTB2, HEADER, SDEC};
use crate::edition::{Edition, CTB2_BYTES, FIELDS};
use crate::ranges::{first_out_of_range, may_stand};
use crate::record::{second_table_sound, First, Record, CNTT_BYTES, SOURCE_CHANNEL};
use crate::refusal::{refuse, Answer};
use crate::sdec::text_sound;

/// A record where it stands: the place of its byte 0, and the record with its Cntt.
#[derive(Clone, Debug, PartialEq, Eq)]
pub struct Placed {
    pub place: usize,
    pub record: Record,
}

/// A sound group: where it stands, its whole length, its Sdec text and its records.
#[derive(Clone, Debug, PartialEq, Eq)]
pub struct Group<'a> {
    pub place: usize,
    pub length: usize,
    pub text: &'a [u8],
    pub records: Vec<Placed>,
}

impl Group<'_> {
    /// The number of the record with this source channel.
    pub fn number_of(&self, channel: u8) -> Option<usize> {
        self.records
            .iter()
            .position(|placed| placed.record.source_channel() == channel)
    }

    /// How many Cntts have been read.
    pub fn cntts(&self) -> usize {
        self.records
            .iter()
            .filter(|placed| placed.record.second_table().is_some())
            .count()
    }

    /// The edition of its records; a group without records has none and "suits either".
    pub fn edition(&self) -> Option<Edition> {
        self.records.first().map(|placed| placed.record.edition())
    }
}

/// The group header at a place: header cut 2, tag 6, length 2.
pub fn group_header(parent: &[u8], place: usize) -> Answer<Header> {
    let group = header(parent, place)?;
    if group.tag != CSEG {
        return refuse(6, place);
    }
    payload(parent, group)?;
    Ok(group)
}

/// The group at a place by the group rules, whatever stands after it.
pub fn group_at(parent: &[u8], place: usize) -> Answer<Group<'_>> {
    let found = group_header(parent, place)?;
    contents(parent, found)
}

/// The contents of a group whose header was sound; places count from the parent's start.
pub fn contents(parent: &[u8], group_header: Header) -> Answer<Group<'_>> {
    let place = group_header.place;
    let length = HEADER + payload(parent, group_header)?.len();
    if length == HEADER {
        return refuse(6, place);
    }
    let mut group = Group {
        place,
        length,
        text: &[],
        records: Vec::new(),
    };
    let within = &parent[..place + length];
    let mut stage = Stage::Start;
    let mut at = place + HEADER;
    while at < within.len() {
        let child = header(within, at)?;
        stage = next_stage(stage, child)?;
        let bytes = payload(within, child)?;
        match stage {
            Stage::Sdec => group.text = sdec(at, bytes)?,
            Stage::Records(edition) => record(&mut group, edition, at, bytes)?,
            _ => cntt(&mut group, at, bytes)?,
        }
        at += HEADER + bytes.len();
    }
    Ok(group)
}

/// The kind of child read last.
#[derive(Clone, Copy, PartialEq)]
enum Stage {
    Start,
    Sdec,
    Records(Edition),
    Cntt,
}

/// First an Sdec, then Ctabs and then Cntts, or Ctb2s alone; any other tag is 6, so of two that
/// do not go together the later one is refused.
fn next_stage(stage: Stage, child: Header) -> Answer<Stage> {
    const CTABS: Stage = Stage::Records(Edition::First);
    const CTB2S: Stage = Stage::Records(Edition::Second);
    match (stage, child.tag) {
        (Stage::Start, SDEC) => Ok(Stage::Sdec),
        (Stage::Sdec | CTABS, CTAB) => Ok(CTABS),
        (Stage::Sdec | CTB2S, CTB2) => Ok(CTB2S),
        (Stage::Sdec | CTABS | Stage::Cntt, CNTT) => Ok(Stage::Cntt),
        _ => refuse(6, child.place),
    }
}

fn sdec(tag: usize, text: &[u8]) -> Answer<&[u8]> {
    if !text_sound(text) {
        return refuse(8, tag);
    }
    Ok(text)
}

/// A Ctab or a Ctb2: own length 7, then 9, then 10.
fn record(group: &mut Group, edition: Edition, tag: usize, bytes: &[u8]) -> Answer<()> {
    if bytes.len() != edition.size() {
        return refuse(7, tag);
    }
    let place = tag + HEADER;
    if let Some(index) = first_out_of_range(edition, bytes) {
        return refuse(9, place + index);
    }
    if group.number_of(bytes[SOURCE_CHANNEL]).is_some() {
        return refuse(10, tag);
    }
    let record = held(edition, bytes);
    group.records.push(Placed { place, record });
    Ok(())
}

/// The record of a chunk's bytes, without a Cntt.
fn held(edition: Edition, bytes: &[u8]) -> Record {
    let mut record = match edition {
        Edition::First => Record::First(First {
            bytes: [0; FIELDS],
            second_table: None,
            position: 0,
        }),
        Edition::Second => Record::Second([0; CTB2_BYTES]),
    };
    record[..].copy_from_slice(&bytes[..edition.fields()]);
    record
}

/// Gives a Cntt and its position to its record. "11 now means only "no Ctab"", and 10 and 11
/// cannot meet: a channel whose first Cntt was accepted has a Ctab.
fn cntt(group: &mut Group, tag: usize, bytes: &[u8]) -> Answer<()> {
    if bytes.len() != CNTT_BYTES {
        return refuse(7, tag);
    }
    if !may_stand(Edition::First, bytes, SOURCE_CHANNEL, bytes[0]) {
        return refuse(9, tag + HEADER);
    }
    if !second_table_sound(bytes[1]) {
        return refuse(9, tag + HEADER + 1);
    }
    let position = group.cntts() as u8 + 1;
    let number = group.number_of(bytes[0]);
    match number.map(|number| &mut group.records[number].record) {
        Some(Record::First(first)) if first.second_table.is_none() => {
            first.second_table = Some(bytes[1]);
            first.position = position;
            Ok(())
        }
        Some(_) => refuse(10, tag),
        None => refuse(11, tag),
    }
}
