//! The bodies of the checks that are worked out by hand (document 02, §13), and their answers.

use super::{plain_record, second_record};
use second::calls::answer;
use second::gen::cntts::{at_position, with_cntt};
use second::record::Record;
use second::script::show_bytes;
use second::write::group_bytes;

/// A record of an edition and a channel.
pub fn one(channel: u8) -> Record {
    let mut record = plain_record();
    record[0] = channel;
    record
}

pub fn two(channel: u8) -> Record {
    let mut record = second_record();
    record[0] = channel;
    record
}

pub type Of = fn(u8) -> Record;

/// The records of each edition and the bytes of one in a body.
pub const EDITIONS: [(Of, usize); 2] = [(one, 27), (two, 47)];

/// Group "A" with channels 5 and 2, a group "B" without records, then "C" with channel 5.
pub fn body(of: Of) -> Vec<u8> {
    [
        group_bytes(b"A", &[of(5), of(2)]),
        group_bytes(b"B", &[]),
        group_bytes(b"C", &[of(5)]),
    ]
    .concat()
}

/// A first-edition record of a channel, with a Cntt at this position.
fn with_its_cntt(channel: u8, position: u8) -> Record {
    at_position(with_cntt(one(channel), Some(0x84)), position)
}

/// Group "A" with channels 5 and 2 and a Cntt of each: these at 87 and 97, 107 bytes in all.
pub fn with_cntts() -> Vec<u8> {
    let body = group_bytes(b"A", &[with_its_cntt(5, 1), with_its_cntt(2, 2)]);
    assert_eq!(body.len(), 107);
    body
}

/// In a group "A" 9 Ctabs, or 7 and 7 Cntts: each 332 bytes; the eighth chunk begins at 262, "Ctab"
/// or "Cntt".
pub fn nine_and_seven() -> [Vec<u8>; 2] {
    let nine: Vec<Record> = (0..9).map(one).collect();
    let seven: Vec<Record> = (0..7)
        .map(|channel| with_its_cntt(channel, channel + 1))
        .collect();
    let bodies = [nine, seven].map(|records| group_bytes(b"A", &records));
    assert_eq!([bodies[0].len(), bodies[1].len()], [332, 332]);
    bodies
}

/// A body or a file with some bytes set.
pub fn with(lent: &[u8], changes: &[(usize, u8)]) -> Vec<u8> {
    let mut bytes = lent.to_vec();
    for &(place, value) in changes {
        bytes[place] = value;
    }
    bytes
}

/// What a verb answers.
pub fn told_by(verb: &str, before: &[u8], after: &[u8], group: u32, channel: u8) -> String {
    let (before, after) = (show_bytes(before), show_bytes(after));
    answer(format!("{verb} {before} {after} {group} {channel}").as_bytes())
}

/// No, at this place.
pub fn no(place: usize) -> String {
    format!("ok no {place}")
}
