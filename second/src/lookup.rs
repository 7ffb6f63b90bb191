//! Where the things of a body stand: a group by its number, a part by its name, a record by its
//! source channel. Follows "After the body: 16 for numbers, 15"; "Groups are numbered from 0".

use crate::body::{group_of_number, number_of_part, read_body};
use crate::bytes::HEADER;
use crate::edition::Edition;
use crate::record::CNTT_BYTES;
use crate::refusal::{refuse, Answer};

/// A run of chunks of one tag and one size: the place of the first one's tag and how many there
/// are. Where there is none it is the place where it would stand.
#[derive(Clone, Copy, Debug, PartialEq, Eq)]
pub struct Run {
    pub place: usize,
    pub count: usize,
}

/// Where a group stands in its body, and where its text, its Ctabs or Ctb2s and its Cntts do; and
/// the edition of its records, if it has any.
#[derive(Clone, Copy, Debug, PartialEq, Eq)]
pub struct Stand {
    pub place: usize,
    pub size: usize,
    pub text: usize,
    pub text_length: usize,
    pub records: Run,
    pub cntts: Run,
    pub edition: Option<Edition>,
}

/// The group of a number: one Sdec, then its Ctabs or Ctb2s, then its Cntts, "with nothing between
/// or after".
pub fn find_group(body: &[u8], number: u32) -> Answer<Stand> {
    let groups = read_body(body)?;
    let group = group_of_number(&groups, number)?;
    let cntts = group.cntts();
    let end = group.place + group.length;
    let cntts_place = end - cntts * (HEADER + CNTT_BYTES);
    let size = group.edition().map_or(0, Edition::size);
    let records_place = cntts_place - group.records.len() * (HEADER + size);
    Ok(Stand {
        place: group.place,
        size: group.length,
        text: records_place - group.text.len(),
        text_length: group.text.len(),
        records: Run {
            place: records_place,
            count: group.records.len(),
        },
        cntts: Run {
            place: cntts_place,
            count: cntts,
        },
        edition: group.edition(),
    })
}

/// The number of the group that has a part.
pub fn find_part(body: &[u8], part: &[u8]) -> Answer<usize> {
    number_of_part(&read_body(body)?, part)
}

/// The number of a source channel's record in a group, and the place of its byte 0.
pub fn find_channel(body: &[u8], group: u32, channel: u8) -> Answer<(usize, usize)> {
    let groups = read_body(body)?;
    let group = group_of_number(&groups, group)?;
    match group.number_of(channel) {
        Some(number) => Ok((number, group.records[number].place)),
        None => refuse(15, 0),
    }
}
