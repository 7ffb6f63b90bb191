//! Checking what other editors return (document 02, §13): each case worked out by hand from the
//! request's words. In a group "A" the first record's byte 0 stands at 25; the second one's at 60
//! behind a Ctab, at 80 behind a Ctb2.

mod common;

use common::checked_bodies::{
    body, nine_and_seven, no, one, told_by, two, with, with_cntts, EDITIONS,
};
use common::{m, n};
use second::body::read_body;
use second::calls::answer;
use second::gen::cntts::{at_position, with_cntt};
use second::record::Record;
use second::write::group_bytes;

fn told(before: &[u8], after: &[u8], group: u32, channel: u8) -> String {
    told_by("checked", before, after, group, channel)
}

/// "An unchanged body too": yes for each record of it.
#[test]
fn an_unchanged_body_is_yes() {
    for (of, _) in EDITIONS {
        for (group, channel) in [(0, 5), (0, 2), (2, 5)] {
            assert_eq!(told(&body(of), &body(of), group, channel), "ok yes");
        }
    }
    assert_eq!(told(&with_cntts(), &with_cntts(), 0, 2), "ok yes");
}

/// Bytes of the record are never compared: every value of each of them is yes where the after body
/// can be read, and no at that place for another record; else the refusal is the after body's.
#[test]
fn any_byte_of_the_record_may_change() {
    for (of, size) in EDITIONS {
        let before = body(of);
        let mut changed = vec![0; size];
        for index in 0..size {
            for value in (0..=255).filter(|&value| value != before[25 + index]) {
                let after = with(&before, &[(25 + index, value)]);
                if let Err(refusal) = read_body(&after) {
                    let expected = format!("refused {} {} after", refusal.number, refusal.place);
                    assert_eq!(told(&before, &after, 0, 5), expected);
                    continue;
                }
                assert_eq!(told(&before, &after, 0, 5), "ok yes");
                let expected = no(25 + index);
                assert_eq!(told(&before, &after, 0, 2), expected);
                assert_eq!(told(&before, &after, 2, 5), expected);
                changed[index] += 1;
            }
        }
        let kept: Vec<usize> = (0..size).filter(|&index| changed[index] == 0).collect();
        let end_marker: &[usize] = if size == 27 { &[26] } else { &[] };
        assert_eq!(kept, end_marker);
        let all: Vec<(usize, u8)> = (0..8).map(|index| (26 + index, 0xFF)).collect();
        assert_eq!(told(&before, &with(&before, &all), 0, 5), "ok yes");
    }
}

/// The source channel is a byte of the record: one renumbered is yes. The record is that of the
/// before body: the after body's channel is not asked for, and no other record stands for it.
#[test]
fn the_record_is_looked_for_in_the_before_body() {
    for (of, size) in EDITIONS {
        let before = body(of);
        let after = with(&before, &[(25, 9)]);
        assert_eq!(told(&before, &after, 0, 5), "ok yes");
        assert_eq!(told(&before, &after, 0, 9), "refused 15 0 before");
        assert_eq!(told(&after, &before, 0, 9), "ok yes");
        assert_eq!(told(&after, &before, 0, 5), "refused 15 0 before");
        let second = 25 + size + 8;
        let turned = with(&before, &[(25, 2), (second, 5)]);
        assert_eq!(told(&before, &turned, 0, 5), no(second));
        assert_eq!(told(&before, &turned, 0, 2), "ok no 25");
    }
}

/// "They differ in no byte outside": a name, another record, a Cntt, the last byte of the body.
#[test]
fn a_byte_outside_the_record_is_no() {
    for (of, size) in EDITIONS {
        let before = body(of);
        let second = 25 + size + 8;
        let name_b = second + size + 16;
        for (place, value) in [(16, b'a'), (second, 9), (second + 25, 1), (name_b, b'x')] {
            let after = with(&before, &[(place, value)]);
            assert_eq!(told(&before, &after, 0, 5), no(place));
            assert_eq!(told(&after, &before, 0, 5), no(place));
        }
    }
    let before = with_cntts();
    for (place, value) in [(96, 0x85), (106, 0x06)] {
        let after = with(&before, &[(place, value)]);
        assert_eq!(told(&before, &after, 0, 5), no(place));
        assert_eq!(told(&before, &after, 0, 2), no(place));
    }
    let channels = with(&before, &[(95, 2), (105, 5)]);
    assert_eq!(told(&before, &channels, 0, 5), "ok no 95");
    let last = [group_bytes(b"A", &[one(5)]), n()].concat();
    let after = with(&last, &[(last.len() - 1, b'!')]);
    assert_eq!(told(&last, &after, 0, 5), "ok no 73");
    let last = group_bytes(b"A", &[two(5), two(2)]);
    assert_eq!(last.len(), 127);
    let after = with(&last, &[(126, 1)]);
    assert_eq!(told(&last, &after, 0, 5), "ok no 126");
    assert_eq!(told(&last, &after, 0, 2), "ok yes");
}

/// Tag and length of the chunk are outside the record.
#[test]
fn the_chunks_tag_is_outside_the_record() {
    let [nine, seven] = nine_and_seven();
    for channel in [0, 6, 7, 8] {
        assert_eq!(told(&nine, &seven, 0, channel), "ok no 263");
    }
    assert_eq!(told(&seven, &nine, 0, 6), "ok no 263");
}

/// An after body of the other edition: 4 Ctb2s, or 6 Ctabs and a Cntt, are 237 bytes in a group
/// "A"; "Ctab" and "Ctb2" are unlike at 19.
#[test]
fn an_after_body_of_the_other_edition_is_no() {
    let ctb2s: Vec<Record> = (0..4).map(two).collect();
    let mut ctabs: Vec<Record> = (0..6).map(one).collect();
    ctabs[0] = at_position(with_cntt(ctabs[0], Some(0x84)), 1);
    let (ctb2s, ctabs) = (group_bytes(b"A", &ctb2s), group_bytes(b"A", &ctabs));
    assert_eq!((ctb2s.len(), ctabs.len()), (237, 237));
    for channel in [0, 3] {
        assert_eq!(told(&ctb2s, &ctabs, 0, channel), "ok no 19");
        assert_eq!(told(&ctabs, &ctb2s, 0, channel), "ok no 19");
    }
    assert_eq!(told(&body(one), &body(two), 0, 5), "ok no 7");
}

/// "They are equally long": the first place at which one of the bodies has no byte.
#[test]
fn bodies_of_other_lengths_are_no() {
    for (of, size) in EDITIONS {
        let short = group_bytes(b"A", &[of(5)]);
        let end = 25 + size;
        assert_eq!(short.len(), end);
        let long = [short.clone(), m(), n()].concat();
        assert_eq!(told(&short, &long, 0, 5), no(end));
        assert_eq!(told(&long, &short, 0, 5), no(end));
        let longer = [long.clone(), group_bytes(b"D", &[])].concat();
        assert_eq!(told(&long, &longer, 0, 5), no(end + 44));
        assert_eq!(told(&longer, &long, 0, 5), no(end + 44));
        assert_eq!(told(&long, &[], 0, 5), "ok no 0");
    }
}

/// Of a byte unlike and a byte missing the first place counts; one inside the record is none.
#[test]
fn the_first_place_counts() {
    for (of, size) in EDITIONS {
        let before = [group_bytes(b"A", &[of(5)]), m()].concat();
        let end = 25 + size;
        let longer = [before.clone(), n()].concat();
        let name = end + 16;
        for (changes, place) in [
            (vec![(16, b'a'), (name, b'x')], 16),
            (vec![(26, b'x'), (name, b'x')], name),
            (vec![(16, b'a'), (26, b'x')], 16),
        ] {
            let expected = no(place);
            assert_eq!(told(&before, &with(&before, &changes), 0, 5), expected);
            assert_eq!(told(&before, &with(&longer, &changes), 0, 5), expected);
            assert_eq!(told(&with(&longer, &changes), &before, 0, 5), expected);
        }
        let inside = with(&longer, &[(26, b'x')]);
        let expected = no(end + 22);
        assert_eq!(told(&before, &inside, 0, 5), expected);
    }
}

/// The lock (document 02, §6) plays no part: a read only record may change, and be locked or freed.
#[test]
fn the_lock_plays_no_part() {
    for (of, _) in EDITIONS {
        let free = body(of);
        let locked = with(&free, &[(35, 1)]);
        let other = with(&locked, &[(26, b'x')]);
        for (before, after) in [(&free, &locked), (&locked, &free), (&locked, &other)] {
            assert_eq!(told(before, after, 0, 5), "ok yes");
            assert!(told(before, after, 0, 2).starts_with("ok no "));
        }
    }
}

/// "The before body's, the after body's, 16, then 15 in the before body; the answer names the body
/// refused": each before the next, with its own place.
#[test]
fn refusals_in_order() {
    for (of, _) in EDITIONS {
        let whole = body(of);
        let cut = &whole[..whole.len() - 1];
        let last = read_body(&whole).unwrap()[2].place;
        let bad = with(&whole, &[(34, 0)]);
        let in_before = format!("refused 2 {last} before");
        let in_after = format!("refused 2 {last} after");
        for (group, channel) in [(0, 5), (0, 7), (1, 5), (3, 5), (u32::MAX, 255)] {
            assert_eq!(told(cut, &whole, group, channel), in_before);
            assert_eq!(told(cut, &bad, group, channel), in_before);
            assert_eq!(told(cut, cut, group, channel), in_before);
            assert_eq!(told(&whole, cut, group, channel), in_after);
            assert_eq!(told(&bad, cut, group, channel), "refused 9 34 before");
            assert_eq!(told(&whole, &bad, group, channel), "refused 9 34 after");
            assert_eq!(told(&[], cut, group, channel), in_after);
            assert_eq!(told(&[], &whole, group, channel), "refused 16 0 before");
        }
        for (group, channel) in [(3, 5), (3, 7), (u32::MAX, 255)] {
            assert_eq!(told(&whole, &whole, group, channel), "refused 16 0 before");
            assert_eq!(told(&whole, &[], group, channel), "refused 16 0 before");
        }
        for (group, channel) in [(0, 7), (0, 16), (0, 255), (2, 2)] {
            assert_eq!(told(&whole, &whole, group, channel), "refused 15 0 before");
            assert_eq!(told(&whole, &[], group, channel), "refused 15 0 before");
        }
    }
    assert_eq!(
        answer(b"checked 00*32769 00*32769 0 0"),
        "refused 3 0 before"
    );
}

/// 16 and 15 are asked of the before body alone, and a group without records has no channel.
#[test]
fn what_only_the_after_body_has_is_not_there() {
    for (of, _) in EDITIONS {
        let before = body(of);
        let more = [before.clone(), group_bytes(b"D", &[of(5)])].concat();
        assert_eq!(told(&before, &more, 3, 5), "refused 16 0 before");
        let end = before.len();
        assert_eq!(told(&more, &before, 3, 5), no(end));
        assert_eq!(told(&before, &before, 1, 5), "refused 15 0 before");
        let filled = [group_bytes(b"B", &[of(5)]), m()].concat();
        let empty = [group_bytes(b"B", &[]), m()].concat();
        assert_eq!(told(&empty, &filled, 0, 5), "refused 15 0 before");
        assert_eq!(told(&filled, &empty, 0, 5), "ok no 7");
    }
}
