//! The strict body and what is asked of it. Follows "Strict body: 3; per group header cut 2,
//! tag 6, length 2, count 12, contents, then 13", document 02, §4: 21 "after its contents and
//! before 13", and "After the body: 16 for numbers, 15".

use crate::edition::Edition;
use crate::group::{contents, group_header, Group};
use crate::record::Record;
use crate::refusal::{refuse, Answer};
use crate::sdec::names;
use crate::style::BODY_LIMIT;
use std::collections::HashSet;

pub const GROUP_LIMIT: usize = 32;

/// All groups of a body.
pub fn read_body(body: &[u8]) -> Answer<Vec<Group<'_>>> {
    if body.len() > BODY_LIMIT {
        return refuse(3, 0);
    }
    let mut groups: Vec<Group> = Vec::new();
    let mut earlier: HashSet<&[u8]> = HashSet::new();
    let mut edition: Option<Edition> = None;
    let mut place = 0;
    while place < body.len() {
        let found = group_header(body, place)?;
        if groups.len() == GROUP_LIMIT {
            return refuse(12, place);
        }
        let group = contents(body, found)?;
        if unlike(edition, group.edition()) {
            return refuse(21, place);
        }
        edition = edition.or(group.edition());
        if names(group.text).any(|name| earlier.contains(name)) {
            return refuse(13, place);
        }
        earlier.extend(names(group.text));
        place += group.length;
        groups.push(group);
    }
    Ok(groups)
}

/// "A group of another edition than the first group with records (one without records suits
/// either)".
fn unlike(first: Option<Edition>, own: Option<Edition>) -> bool {
    first.is_some() && own.is_some() && first != own
}

/// The group of a number, counted from 0, or 16.
pub fn group_of_number<'a, 'b>(groups: &'b [Group<'a>], number: u32) -> Answer<&'b Group<'a>> {
    match groups.get(number as usize) {
        Some(group) => Ok(group),
        None => refuse(16, 0),
    }
}

/// The number of the group that has a part name, or 15; names match whole, byte by byte.
pub fn number_of_part(groups: &[Group], part: &[u8]) -> Answer<usize> {
    let has_part = |group: &Group| names(group.text).any(|name| name == part);
    match groups.iter().position(has_part) {
        Some(number) => Ok(number),
        None => refuse(15, 0),
    }
}

/// Reads a group's records into a lent table; answers their count and the Sdec text.
pub fn read_group<'a>(
    body: &'a [u8],
    number: u32,
    lent: &mut [Record],
) -> Answer<(usize, &'a [u8])> {
    let groups = read_body(body)?;
    let group = group_of_number(&groups, number)?;
    let count = group.records.len();
    if count > lent.len() {
        return refuse(14, 0);
    }
    for (room, placed) in lent.iter_mut().zip(&group.records) {
        *room = placed.record;
    }
    Ok((count, group.text))
}
