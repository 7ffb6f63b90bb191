//! Editing one record inside a body: "Only that Ctab's 27 bytes may change; a Cntt given with
//! the new record is neither read nor checked", and of its position: "an edit doesn't read it"
//! (document 02, §1). Of a Ctb2 the 47 bytes may change. Order: body, 16, 15, source channel 16,
//! 21 (document 02, §4: "an edit's record unlike the body's (place 0, before 9)"), 22 (document 02,
//! §6: "read only, place 10, after an edit's 21 and before 9"), 9.
//!
//! The same inside a style file (ours), by a part of the group: the file's finding, the body's own,
//! whose place is counted from the start of the file, 15 for the part, then 15 and what follows it.

use crate::body::{number_of_part, read_body};
use crate::edition::{Edition, FIELDS};
use crate::lookup::{find_channel, find_group};
use crate::ranges::first_out_of_range;
use crate::record::{is_locked, Record, READ_ONLY};
use crate::refusal::{refuse, Answer, Refusal};
use crate::style::find;

/// Replaces the record of a group and source channel; one "that has byte 10 = 01 in the body" only
/// where "the caller asks to override". The new record's byte 10 plays no part in that.
pub fn edit(
    body: &mut [u8],
    group: u32,
    channel: u8,
    record: &Record,
    overriding: bool,
) -> Answer<()> {
    let (_, place) = find_channel(body, group, channel)?;
    if record.source_channel() != channel {
        return refuse(16, 0);
    }
    let edition = record.edition();
    if find_group(body, group)?.edition != Some(edition) {
        return refuse(21, 0);
    }
    if is_locked(&body[place..]) && !overriding {
        return refuse(22, READ_ONLY);
    }
    if let Some(index) = first_out_of_range(edition, record.bytes()) {
        return refuse(9, index);
    }
    body[place..place + edition.fields()].copy_from_slice(record.bytes());
    if edition == Edition::First {
        body[place + FIELDS] = 0x00;
    }
    Ok(())
}

/// Replaces the record of a source channel in the group of a style file that has a part; on refusal
/// the file stays as it is.
pub fn edit_file(
    file: &mut [u8],
    part: &[u8],
    channel: u8,
    record: &Record,
    overriding: bool,
) -> Answer<()> {
    let found = find(file)?;
    let start = found.body_place();
    let groups = read_body(found.body(file)).map_err(|refusal| Refusal {
        place: start + refusal.place,
        ..refusal
    })?;
    let group = number_of_part(&groups, part)? as u32;
    let body = &mut file[start..start + found.body_length];
    edit(body, group, channel, record, overriding)
}
