//! Checking what other editors return (document 02, §13). Order: "the before body's, the after
//! body's, 16, then 15 in the before body; the answer names the body refused". The same is asked of
//! two style files: there the before file's finding and then the after file's come first, and the
//! sections other than CASM must be equal too.

use crate::body::{group_of_number, read_body};
use crate::group::Group;
use crate::refusal::{refuse, Answer, Refusal};
use crate::style::find;
use std::ops::Range;

/// What a refusal speaks of: the finding in a file, or a body; the before body for 16 and 15.
#[derive(Clone, Copy, Debug, PartialEq, Eq)]
pub enum Which {
    BeforeFile,
    AfterFile,
    Before,
    After,
}

/// Yes, or no with the first place outside the record "at which one of the bodies has no byte or
/// the two have different ones"; of two files the same, counted from their start.
#[derive(Clone, Copy, Debug, PartialEq, Eq)]
pub enum Checked {
    Yes,
    No(usize),
}

pub type Check = Result<Checked, (Refusal, Which)>;

/// Whether two readable bodies "are equally long and differ in no byte outside that Ctab's or
/// Ctb2's record", the record being that of the before body; it is not looked for in the after one.
pub fn check(before: &[u8], after: &[u8], group: u32, channel: u8) -> Check {
    check_lent(&Lent::body(before), &Lent::body(after), group, channel)
}

/// The same of two style files with readable bodies: whether they are equally long and differ in no
/// byte outside that record of the before file's body.
pub fn check_files(before: &[u8], after: &[u8], group: u32, channel: u8) -> Check {
    let before = Lent::file(before).map_err(named(Which::BeforeFile))?;
    let after = Lent::file(after).map_err(named(Which::AfterFile))?;
    check_lent(&before, &after, group, channel)
}

/// Lent bytes and the body among them, which begins at a place of theirs.
struct Lent<'a> {
    bytes: &'a [u8],
    body: &'a [u8],
    body_place: usize,
}

impl<'a> Lent<'a> {
    /// A body that is lent alone.
    fn body(body: &'a [u8]) -> Lent<'a> {
        Lent {
            bytes: body,
            body,
            body_place: 0,
        }
    }

    /// A style file with the body of its CASM, or the refusal of its finding.
    fn file(file: &'a [u8]) -> Answer<Lent<'a>> {
        let found = find(file)?;
        Ok(Lent {
            bytes: file,
            body: found.body(file),
            body_place: found.body_place(),
        })
    }

    /// The groups of the body; the place of its refusal is counted from the start of the lent bytes.
    fn groups(&self) -> Answer<Vec<Group<'a>>> {
        read_body(self.body).map_err(|refusal| Refusal {
            place: self.body_place + refusal.place,
            ..refusal
        })
    }
}

fn check_lent(before: &Lent, after: &Lent, group: u32, channel: u8) -> Check {
    let groups = before.groups().map_err(named(Which::Before))?;
    after.groups().map_err(named(Which::After))?;
    let record = record_place(&groups, group, channel).map_err(named(Which::Before))?;
    let record = before.body_place + record.start..before.body_place + record.end;
    let unlike = first_unlike_outside(&record, before.bytes, after.bytes);
    Ok(unlike.map_or(Checked::Yes, Checked::No))
}

/// A refusal with what it speaks of.
fn named(which: Which) -> impl Fn(Refusal) -> (Refusal, Which) {
    move |refusal| (refusal, which)
}

/// Where the record of a group number and a source channel stands in its body: 16, then 15.
fn record_place(groups: &[Group], group: u32, channel: u8) -> Answer<Range<usize>> {
    let group = group_of_number(groups, group)?;
    let Some(number) = group.number_of(channel) else {
        return refuse(15, 0);
    };
    let found = &group.records[number];
    Ok(found.place..found.place + found.record.edition().size())
}

/// The first place outside the record at which one of the two has no byte or they have different
/// ones. Where their lengths differ there is one: what ends inside the record, and can be read, has
/// another length before it.
fn first_unlike_outside(record: &Range<usize>, before: &[u8], after: &[u8]) -> Option<usize> {
    let longer = before.len().max(after.len());
    (0..longer)
        .filter(|place| !record.contains(place))
        .find(|&place| before.get(place) != after.get(place))
}
