//! Read only means read only (document 02, §6): each case worked out by hand from the request's
//! words. In a group "A" byte 0 of the first record stands at 25, so its byte 10 at 35.

mod common;

use common::{plain_record, second_record, REFUSED_NONE};
use second::calls::answer;
use second::edit::edit;
use second::gen::cntts::{at_position, with_cntt};
use second::record::{First, Record};
use second::refusal::Refusal;
use second::screen::set_field;
use second::script::{show_bytes, show_record};
use second::write::group_bytes;

fn no<T>(answer: Result<T, Refusal>) -> (u8, usize) {
    let refusal = answer.err().unwrap_or(REFUSED_NONE);
    (refusal.number, refusal.place)
}

/// A record with some bytes set.
fn with(mut record: Record, changes: &[(usize, u8)]) -> Record {
    for &(index, value) in changes {
        record[index] = value;
    }
    record
}

/// A record of an edition, of a channel and with a byte 10.
fn one(channel: u8, lock: u8) -> Record {
    with(plain_record(), &[(0, channel), (10, lock)])
}

fn two(channel: u8, lock: u8) -> Record {
    with(second_record(), &[(0, channel), (10, lock)])
}

type Of = fn(u8, u8) -> Record;

/// The records of each edition, and those of the other.
const EDITIONS: [(Of, Of); 2] = [(one, two), (two, one)];

/// Groups "A" with channel 5 read only and channel 2 editable, "B" the other way round.
fn body(of: Of) -> Vec<u8> {
    [
        group_bytes(b"A", &[of(5, 1), of(2, 0)]),
        group_bytes(b"B", &[of(5, 0), of(2, 1)]),
    ]
    .concat()
}

/// Edits a copy of a body; what is refused changes no byte of it.
fn edited(body: &[u8], at: (u32, u8), new: &Record, overriding: bool) -> Result<Vec<u8>, Refusal> {
    let mut lent = body.to_vec();
    let answer = edit(&mut lent, at.0, at.1, new, overriding);
    if answer.is_err() {
        assert_eq!(lent, body);
    }
    answer.map(|()| lent)
}

/// Presses a key on a copy of a record; what is refused changes nothing of it, what is accepted
/// that byte alone.
fn pressed(record: &Record, index: u32, value: u8) -> (u8, usize) {
    let mut lent = *record;
    let answer = no(set_field(&mut lent, index, value));
    let expected = match answer {
        (0, 0) => with(*record, &[(index as usize, value)]),
        _ => *record,
    };
    assert_eq!(lent, expected);
    answer
}

fn is(line: &str, expected: &str) {
    assert_eq!(answer(line.as_bytes()), expected, "{line}");
}

/// "An edit of a record that has byte 10 = 01 in the body is refused": 22, "place 10". The record
/// of another channel, and that of the channel in another group, play no part.
#[test]
fn a_locked_record_is_not_edited() {
    for (of, _) in EDITIONS {
        let body = body(of);
        for lock in [0, 1] {
            let new = |channel: u8| with(of(channel, lock), &[(8, b'x')]);
            for locked in [(0, 5), (1, 2)] {
                let told = no(edited(&body, locked, &new(locked.1), false));
                assert_eq!(told, (22, 10));
            }
            for free in [(0, 2), (1, 5)] {
                assert!(edited(&body, free, &new(free.1), false).is_ok());
            }
        }
    }
}

/// "Unless the caller asks to override": then the edit is as it was, of a locked record and of a
/// free one.
#[test]
fn an_override_edits_a_locked_record() {
    for (of, _) in EDITIONS {
        let new = with(of(5, 1), &[(8, b'x')]);
        let mut expected = body(of);
        expected[25 + 8] = b'x';
        assert_eq!(edited(&body(of), (0, 5), &new, true), Ok(expected));
        let free = with(of(2, 0), &[(8, b'x')]);
        let without = edited(&body(of), (0, 2), &free, false);
        assert_eq!(edited(&body(of), (0, 2), &free, true), without);
        let bad = with(of(5, 1), &[(9, 0)]);
        assert_eq!(no(edited(&body(of), (0, 5), &bad, true)), (9, 9));
        let bad = of(5, 2);
        assert_eq!(no(edited(&body(of), (0, 5), &bad, true)), (9, 10));
    }
}

/// The lock is that of the record "in the body": a new record that clears it is refused, one that
/// sets it is not, and neither is the next edit of a record that an override has cleared.
#[test]
fn the_new_records_byte_10_plays_no_part() {
    for (of, _) in EDITIONS {
        let body = body(of);
        assert_eq!(no(edited(&body, (0, 5), &of(5, 0), false)), (22, 10));
        let set = edited(&body, (1, 5), &of(5, 1), false).unwrap();
        assert_eq!(no(edited(&set, (1, 5), &of(5, 0), false)), (22, 10));
        let cleared = edited(&body, (0, 5), &of(5, 0), true).unwrap();
        assert_eq!(cleared[35], 0);
        assert_eq!(edited(&cleared, (0, 5), &of(5, 1), false), Ok(body));
    }
}

/// An edit that would change nothing is one "of a record that has byte 10 = 01" too.
#[test]
fn an_edit_that_changes_nothing_is_refused_too() {
    for (of, _) in EDITIONS {
        let body = body(of);
        assert_eq!(no(edited(&body, (0, 5), &of(5, 1), false)), (22, 10));
        assert_eq!(edited(&body, (0, 5), &of(5, 1), true), Ok(body.clone()));
        assert_eq!(edited(&body, (0, 2), &of(2, 0), false), Ok(body.clone()));
    }
}

/// "After an edit's 21 and before 9": the body's, 16, 15, source channel 16, 21, 22, 9, each before
/// the next.
#[test]
fn edits_of_a_locked_record_in_order() {
    for (of, other) in EDITIONS {
        let whole = body(of);
        let bad = |record: Record| with(record, &[(9, 0)]);
        let cut = &whole[..whole.len() - 1];
        assert_eq!(no(edited(cut, (0, 5), &bad(other(4, 1)), false)).0, 2);
        let told = |at: (u32, u8), new: &Record| no(edited(&whole, at, new, false));
        assert_eq!(told((2, 5), &bad(other(4, 1))), (16, 0));
        assert_eq!(told((0, 9), &bad(other(4, 1))), (15, 0));
        assert_eq!(told((0, 5), &bad(other(4, 1))), (16, 0));
        assert_eq!(told((0, 5), &of(4, 1)), (16, 0));
        assert_eq!(told((0, 5), &bad(other(5, 1))), (21, 0));
        assert_eq!(told((0, 5), &other(5, 0)), (21, 0));
        for index in [9, 10, 11, 18, 19] {
            let new = with(of(5, 1), &[(index, 0xFF)]);
            assert_eq!(told((0, 5), &new), (22, 10));
        }
        assert_eq!(told((0, 2), &bad(of(2, 1))), (9, 9));
        assert_eq!(told((0, 2), &of(2, 2)), (9, 10));
    }
}

/// The screen doesn't ask to override: on a record with byte 10 = 01 every index in range but 10 is
/// refused with 22, "on the screen after 16 and before 9".
#[test]
fn the_screen_of_a_locked_record() {
    for (of, fields) in [(one as Of, 26), (two, 47)] {
        let locked = of(3, 1);
        for index in (0..fields).filter(|&index| index != 10) {
            for value in [0, 8, 0xFF, locked[index as usize]] {
                assert_eq!(pressed(&locked, index, value), (22, 10), "{index}");
            }
        }
        for index in [fields, fields + 1, 255, u32::MAX] {
            assert_eq!(pressed(&locked, index, 0), (16, 0));
        }
        assert_eq!(pressed(&of(3, 0), 9, 7), (9, 9));
        assert_eq!(pressed(&of(3, 0), 9, 8), (0, 0));
    }
}

/// "Setting byte index 10 itself is never refused with 22": to 00 and 01 it is set, a value out of
/// its range is 9 at 10. After clearing, the next press is free; after setting, it is not.
#[test]
fn index_10_is_never_refused_with_22() {
    for (of, _) in EDITIONS {
        for lock in [0, 1, 2, 0xFF] {
            assert_eq!(pressed(&of(3, lock), 10, 0), (0, 0));
            assert_eq!(pressed(&of(3, lock), 10, 1), (0, 0));
            for bad in [2, 0x80, 0xFF] {
                assert_eq!(pressed(&of(3, lock), 10, bad), (9, 10));
            }
        }
        let mut record = of(3, 1);
        assert_eq!(no(set_field(&mut record, 18, 4)), (22, 10));
        assert_eq!(set_field(&mut record, 10, 0), Ok(()));
        assert_eq!(set_field(&mut record, 18, 4), Ok(()));
        assert_eq!(set_field(&mut record, 10, 1), Ok(()));
        assert_eq!(no(set_field(&mut record, 18, 5)), (22, 10));
        assert_eq!(record, with(of(3, 1), &[(18, 4)]));
    }
}

/// "Byte 10 = 01" and no other value: 02 or FF, which only a record on the screen can have, does not
/// lock. The record's other bytes play no part.
#[test]
fn only_01_locks_on_the_screen() {
    for (of, _) in EDITIONS {
        for lock in [0, 2, 3, 0x10, 0x80, 0x81, 0xEE, 0xFF] {
            assert_eq!(pressed(&of(3, lock), 18, 11), (0, 0));
            assert_eq!(pressed(&of(3, lock), 18, 12), (9, 18));
        }
    }
    let broken = Record::First(First {
        bytes: [0xEE; 26],
        second_table: Some(0xEE),
        position: 0xEE,
    });
    for record in [broken, Record::Second([0xEE; 47])] {
        assert_eq!(pressed(&record, 18, 11), (0, 0));
        let locked = with(record, &[(10, 1)]);
        assert_eq!(pressed(&locked, 18, 11), (22, 10));
        assert_eq!(pressed(&locked, 18, 12), (22, 10));
        assert_eq!(pressed(&locked, 10, 0), (0, 0));
    }
}

/// A Cntt given with the new record, and its position, are still "neither read nor checked", with
/// and without override; the screen keeps them where it refuses.
#[test]
fn a_lock_reads_no_cntt() {
    let body = body(one);
    for (cntt, position) in [(None, 0), (Some(0x84), 1), (Some(0xFF), 255)] {
        let positioned = |record: Record| at_position(with_cntt(record, cntt), position);
        let new = positioned(one(5, 0));
        assert_eq!(no(edited(&body, (0, 5), &new, false)), (22, 10));
        assert!(edited(&body, (0, 5), &new, true).is_ok());
        assert_eq!(pressed(&positioned(one(3, 1)), 21, 4), (22, 10));
    }
}

/// `edit BYTES G CHANNEL REC OVERRIDE`: "OVERRIDE is `0` or `1`, and there must be one"; `screen`
/// "is as before". A refusal prints the lent bytes as they were.
#[test]
fn lines_with_override() {
    for (of, _) in EDITIONS {
        let body = group_bytes(b"A", &[of(3, 1)]);
        let hex = show_bytes(&body);
        let rec = show_record(&of(3, 0));
        let mut after = body.clone();
        after[35] = 0;
        let cleared = format!("ok {}", show_bytes(&after));
        for over in ["0", "00", "0000000000000000000000000000000"] {
            let line = format!("edit {hex} 0 3 {rec} {over}");
            is(&line, &format!("refused 22 10 {hex}"));
        }
        for over in ["1", "01", "00000000000000000000000000001"] {
            is(&format!("edit {hex} 0 3 {rec} {over}"), &cleared);
        }
        is(&format!("edit {hex} 0 3 {rec}"), "bad");
        for over in ["2", "10", "255", "4294967297", "-1", "+1", "x", "-", "0 0"] {
            is(&format!("edit {hex} 0 3 {rec} {over}"), "bad");
        }
        let locked = show_record(&of(3, 1));
        is(
            &format!("screen {locked} 0 3"),
            &format!("refused 22 10 {locked}"),
        );
        is(&format!("screen {locked} 10 0"), &format!("ok {rec}"));
        is(&format!("screen {locked} 0 3 1"), "bad");
    }
}

/// "From now an edit" and the screen: no other call looks at byte 10. A read only record is read,
/// asked for, placed and written.
#[test]
fn a_lock_stops_nothing_else() {
    for (of, _) in EDITIONS {
        let body = group_bytes(b"A", &[of(3, 1)]);
        let (hex, rec) = (show_bytes(&body), show_record(&of(3, 1)));
        let length = body.len();
        is(&format!("body {hex}"), "ok 1");
        is(&format!("group {hex} 0 1"), &format!("ok 1 41 {rec} kept"));
        is(&format!("voice {hex} 0 3"), "ok 5069616e6f");
        is(&format!("plays {hex} 41 0 0"), "ok 3");
        is(&format!("place {rec} 0 60"), "ok 60");
        is(
            &format!("write 41 1 {length} {rec}"),
            &format!("ok {length} {hex}"),
        );
        is(
            &format!("salvage {hex} 1"),
            &format!("ok 1 0,{length},0 kept"),
        );
    }
}
