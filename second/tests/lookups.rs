//! Where groups, parts and records stand: answers worked out by hand from the sizes of chunks,
//! 8 bytes of header and the payload: 35 for a Ctab, 10 for a Cntt.

mod common;

use common::{m, n, plain_record};
use second::calls::answer;
use second::gen::cntts::{at_position, with_cntt};
use second::record::Record;
use second::script::show_bytes;
use second::write::group_bytes;

/// A plain record of a channel, maybe with a Cntt.
fn record(channel: u8, second_table: Option<u8>) -> Record {
    let mut record = plain_record();
    record[0] = channel;
    with_cntt(record, second_table)
}

/// Four groups, at 0, 24, 125 and 162: the first and the third have no record, "Intro" has
/// channels 7 and 2 and a Cntt of 2, the last has channels 15, 0 and 9 and a Cntt of each.
fn four() -> Vec<u8> {
    let groups = [
        group_bytes(b"Main A,B", &[]),
        group_bytes(b"Intro", &[record(7, None), record(2, Some(0x84))]),
        group_bytes(b"sixteen letters.,Fill", &[]),
        group_bytes(
            b"x,Ending,y",
            &[
                record(15, Some(0x04)),
                record(0, Some(0x80)),
                record(9, Some(0x8A)),
            ],
        ),
    ];
    assert_eq!(groups.each_ref().map(Vec::len), [24, 101, 37, 161]);
    groups.concat()
}

/// The answer of a verb on a body and further tokens.
fn of(verb: &str, body: &[u8], tokens: &str) -> String {
    answer(format!("{verb} {} {tokens}", show_bytes(body)).as_bytes())
}

#[test]
fn where_groups_stand() {
    let body = four();
    for (number, expected) in [
        ("0", "ok 0 24 16 8 24 0 24 0 0"),
        ("1", "ok 24 101 40 5 45 2 115 1 1"),
        ("2", "ok 125 37 141 21 162 0 162 0 0"),
        ("3", "ok 162 161 178 10 188 3 293 3 1"),
        ("4", "refused 16 0"),
        ("4294967295", "refused 16 0"),
    ] {
        assert_eq!(of("where", &body, number), expected, "{number}");
    }
    assert_eq!(of("where", &m(), "0"), "ok 0 22 16 6 22 0 22 0 0");
    let both = [m(), n()].concat();
    assert_eq!(of("where", &both, "1"), "ok 22 22 38 6 44 0 44 0 0");
    let one = group_bytes(b"A", &[record(15, None)]);
    assert_eq!(of("where", &one, "0"), "ok 0 52 16 1 17 1 52 0 1");
    let sixteen: Vec<Record> = (0..16).map(|channel| record(channel, Some(6))).collect();
    let full = group_bytes(b"A", &sixteen);
    assert_eq!(of("where", &full, "0"), "ok 0 737 16 1 17 16 577 16 1");
}

#[test]
fn where_records_stand() {
    let body = four();
    for (tokens, expected) in [
        ("1 7", "ok 0 53"),
        ("1 2", "ok 1 88"),
        ("3 15", "ok 0 196"),
        ("3 0", "ok 1 231"),
        ("3 9", "ok 2 266"),
        ("0 7", "refused 15 0"),
        ("2 0", "refused 15 0"),
        ("1 0", "refused 15 0"),
        ("3 7", "refused 15 0"),
        ("3 16", "refused 15 0"),
        ("3 255", "refused 15 0"),
        ("4 7", "refused 16 0"),
        ("4294967295 255", "refused 16 0"),
    ] {
        assert_eq!(of("channel", &body, tokens), expected, "{tokens}");
    }
}

/// Cntts by channel number beside Ctabs that are not (document 02, §1): all stands as before.
#[test]
fn where_things_stand_beside_cntts_in_another_order() {
    let at = |channel, position| at_position(record(channel, Some(0x84)), position);
    for positions in [[1, 2, 3], [3, 1, 2], [2, 3, 1]] {
        let [first, second, third] = positions;
        let body = group_bytes(b"A", &[at(15, first), at(0, second), at(9, third)]);
        assert_eq!(of("where", &body, "0"), "ok 0 152 16 1 17 3 122 3 1");
        assert_eq!(of("channel", &body, "0 15"), "ok 0 25");
        assert_eq!(of("channel", &body, "0 9"), "ok 2 95");
        assert_eq!(of("part", &body, "41"), "ok 0");
    }
}

#[test]
fn which_group_has_a_part() {
    let body = four();
    for (part, expected) in [
        ("Main A", "ok 0"),
        ("B", "ok 0"),
        ("Intro", "ok 1"),
        ("sixteen letters.", "ok 2"),
        ("Fill", "ok 2"),
        ("x", "ok 3"),
        ("Ending", "ok 3"),
        ("y", "ok 3"),
        ("", "refused 15 0"),
        (",", "refused 15 0"),
        ("Main A,B", "refused 15 0"),
        ("Main A,", "refused 15 0"),
        ("Main", "refused 15 0"),
        ("A", "refused 15 0"),
        ("intro", "refused 15 0"),
        ("Intro ", "refused 15 0"),
        ("ntro", "refused 15 0"),
        ("seventeen letters", "refused 15 0"),
    ] {
        let tokens = show_bytes(part.as_bytes());
        assert_eq!(of("part", &body, &tokens), expected, "{part}");
    }
    for strange in ["ff", "00", "1f", "7f", "4d61696e2041ff", "00*1048577"] {
        assert_eq!(of("part", &body, strange), "refused 15 0", "{strange}");
    }
}

/// A body that is refused is refused with its own number and place, whatever is asked for.
#[test]
fn the_body_comes_first() {
    let mut body = four();
    body[125 + 7] += 1;
    for (verb, tokens) in [
        ("part", "49"),
        ("part", "-"),
        ("where", "0"),
        ("where", "9"),
        ("channel", "1 7"),
        ("channel", "9 99"),
    ] {
        assert_eq!(of(verb, &body, tokens), "refused 2 162", "{verb} {tokens}");
    }
    assert_eq!(of("where", &[], "0"), "refused 16 0");
    assert_eq!(of("channel", &[], "0 0"), "refused 16 0");
    assert_eq!(of("part", &[], "41"), "refused 15 0");
}
