//! Writing one group. Follows "Writing and editing" and "Writing: 16 when the count exceeds
//! the lent table, 8, per record 9 then 10, 14"; document 02, §1: "18, positions wrong, after
//! each record's 9 and 10 and before 14 in writing, place 0"; and §4: 21 for "a written record
//! unlike the first in edition (its byte 0, before its 9)".

use crate::bytes::{Tag, CNTT, CSEG, SDEC};
use crate::record::{first_bad_byte, First, Record, SOURCE_CHANNEL};
use crate::refusal::{refuse, Answer};
use crate::sdec::text_sound;

/// Writes a group at the start of a lent buffer and answers its length.
pub fn write_group(text: &[u8], table: &[Record], count: u32, lent: &mut [u8]) -> Answer<usize> {
    if count as usize > table.len() {
        return refuse(16, 0);
    }
    let records = &table[..count as usize];
    if !text_sound(text) {
        return refuse(8, 0);
    }
    judge_records(records)?;
    judge_positions(records)?;
    let group = group_bytes(text, records);
    if group.len() > lent.len() {
        return refuse(14, 0);
    }
    lent[..group.len()].copy_from_slice(&group);
    Ok(group.len())
}

/// Record by record, 21, 9 and then 10; "Places in writing count 47 a record" of the second
/// edition, and the first record says which edition that is.
fn judge_records(records: &[Record]) -> Answer<()> {
    for (number, record) in records.iter().enumerate() {
        let edition = records[0].edition();
        let place = edition.size() * number;
        if record.edition() != edition {
            return refuse(21, place);
        }
        if let Some(index) = first_bad_byte(record) {
            return refuse(9, place + index);
        }
        let channel = record.source_channel();
        if records[..number]
            .iter()
            .any(|earlier| earlier.source_channel() == channel)
        {
            return refuse(10, place);
        }
    }
    Ok(())
}

/// 18 "unless records without a Cntt have 0 and the others 1 to their number, each once"; a
/// second-edition record has neither.
fn judge_positions(records: &[Record]) -> Answer<()> {
    let (with, without): (Vec<&First>, Vec<&First>) =
        firsts(records).partition(|record| record.second_table.is_some());
    let mut positions: Vec<usize> = with.iter().map(|r| usize::from(r.position)).collect();
    positions.sort_unstable();
    let each_once = positions.iter().copied().eq(1..=positions.len());
    let others_0 = without.iter().all(|record| record.position == 0);
    if !each_once || !others_0 {
        return refuse(18, 0);
    }
    Ok(())
}

/// The first-edition records among these, in their order.
fn firsts(records: &[Record]) -> impl Iterator<Item = &First> {
    records.iter().filter_map(|record| match record {
        Record::First(first) => Some(first),
        Record::Second(_) => None,
    })
}

/// The bytes of a group: its Sdec, its Ctabs or Ctb2s, then by position a Cntt for each record
/// that has one; records of one position, which are never written, follow one another as they
/// stand.
pub fn group_bytes(text: &[u8], records: &[Record]) -> Vec<u8> {
    let mut children = chunk(SDEC, text);
    for record in records {
        let mut bytes = record.bytes().to_vec();
        bytes.resize(record.edition().size(), 0x00);
        children.extend(chunk(record.edition().tag(), &bytes));
    }
    let mut by_position: Vec<&First> = firsts(records).collect();
    by_position.sort_by_key(|record| record.position);
    for record in by_position {
        if let Some(value) = record.second_table {
            children.extend(chunk(CNTT, &[record.bytes[SOURCE_CHANNEL], value]));
        }
    }
    chunk(CSEG, &children)
}

/// A tag, a length and that many bytes.
pub fn chunk(tag: Tag, payload: &[u8]) -> Vec<u8> {
    let mut bytes = tag.to_vec();
    bytes.extend((payload.len() as u32).to_be_bytes());
    bytes.extend(payload);
    bytes
}
