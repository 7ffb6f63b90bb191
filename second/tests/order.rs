//! Refusals that meet one another, and limits met and passed by one: each answer worked out
//! by hand from document 01, "Numbers of refusal", last paragraph.

mod common;

use common::{entries_of, m, n, plain_record, second_record, REFUSED_NONE};
use second::body::{read_body, read_group};
use second::edit::{edit, edit_file};
use second::gen::cntts::{at_position, with_cntt};
use second::lookup::{find_channel, find_group, find_part};
use second::place::place_note;
use second::plays::who_plays;
use second::record::{First, Record};
use second::refusal::Refusal;
use second::salvage::{salvage, Entry};
use second::screen::set_field;
use second::style::{find, Found};
use second::voice::voice_name;
use second::write::{chunk, group_bytes, write_group};

fn no<T>(answer: Result<T, Refusal>) -> (u8, usize) {
    let refusal = answer.err().unwrap_or(REFUSED_NONE);
    (refusal.number, refusal.place)
}

fn strict(body: &[u8]) -> (u8, usize) {
    no(read_body(body))
}

/// A file of an empty track and these sections.
fn file(sections: &[u8]) -> Vec<u8> {
    let mut file = chunk(*b"MThd", &[9; 6]);
    file.extend(chunk(*b"MTrk", &[]));
    file.extend(sections);
    file
}

/// A plain record of a channel, with some bytes set and maybe a Cntt.
fn record(channel: u8, changes: &[(usize, u8)], cntt: Option<u8>) -> Record {
    let mut record = plain_record();
    record[0] = channel;
    for &(index, value) in changes {
        record[index] = value;
    }
    with_cntt(record, cntt)
}

/// A record whose Cntt has a position.
fn positioned(channel: u8, cntt: Option<u8>, position: u8) -> Record {
    at_position(record(channel, &[], cntt), position)
}

fn ctab(record: &Record) -> Vec<u8> {
    chunk(*b"Ctab", &[record.bytes(), &[0]].concat())
}

fn cntt(channel: u8, value: u8) -> Vec<u8> {
    chunk(*b"Cntt", &[channel, value])
}

/// A group of the Sdec "A" (children from place 17 on) and these children.
fn group(children: &[Vec<u8>]) -> Vec<u8> {
    let sdec = chunk(*b"Sdec", b"A");
    chunk(*b"CSEG", &[sdec, children.concat()].concat())
}

fn named(text: &str) -> Vec<u8> {
    group_bytes(text.as_bytes(), &[])
}

/// So many groups named by two digits, of 18 bytes each.
fn many(count: usize) -> Vec<u8> {
    (0..count)
        .flat_map(|number| named(&format!("{number:02}")))
        .collect()
}

#[test]
fn finding_refusal_1_and_3() {
    assert_eq!(no(find(&vec![0; 1_048_577])), (3, 0));
    assert_eq!(no(find(&vec![0; 1_048_576])), (1, 0));
    assert_eq!(no(find(&file(&[])[..21])), (1, 0));
    assert_eq!(no(find(&file(&[]))), (5, 22));
    for place in [0, 3, 4, 7, 14, 17, 18, 21] {
        let mut damaged = file(&chunk(*b"CASM", b""));
        damaged[place] ^= 0x20;
        assert_eq!(no(find(&damaged)), (1, 0), "{place}");
    }
    let mut track = file(b"12345678");
    track[21] = 8;
    assert_eq!(no(find(&track)), (5, 30));
    track[21] = 9;
    assert_eq!(no(find(&track)), (1, 0));
}

#[test]
fn finding_sections() {
    let casm = chunk(*b"CASM", b"");
    let ots = chunk(*b"OTSc", b"xy");
    let of = |parts: &[&[u8]]| find(&file(&parts.concat()));
    assert_eq!(no(of(&[&ots, &ots])), (4, 32));
    assert_eq!(no(of(&[&casm, &casm])), (4, 30));
    assert_eq!(no(of(&[&casm, b"CASM\0\0\0\x01"])), (2, 30));
    assert_eq!(no(of(&[&casm, b"CASM\0\0\0"])), (2, 30));
    assert_eq!(no(of(&[&ots, &casm, b"FNRc\xFF\xFF\xFF\xF8"])), (2, 40));
    assert_eq!(no(of(&[&ots])), (5, 32));
    assert_eq!(no(of(&[&chunk(*b"casm", b"")])), (5, 30));
    let found = Found {
        tag_place: 48,
        body_length: 0,
    };
    let head = chunk(*b"MThd", b"");
    let track = chunk(*b"MTrk", b"zz");
    assert_eq!(of(&[&head, &track, &b"zzzz\0\0\0\0"[..], &casm]), Ok(found));
    assert_eq!(no(of(&[&head, &casm, &head])), (4, 38));
}

#[test]
fn finding_an_oversize_body_comes_last() {
    let ots = chunk(*b"OTSc", b"");
    let great = chunk(*b"CASM", &[0; 32_769]);
    let whole = chunk(*b"CASM", &[0; 32_768]);
    let of = |parts: &[&[u8]]| no(find(&file(&parts.concat())));
    assert_eq!(of(&[&whole]), (0, 0));
    assert_eq!(of(&[&great]), (3, 22));
    assert_eq!(of(&[&ots, &great]), (3, 30));
    assert_eq!(of(&[&ots, &great, &b"x"[..]]), (2, 30 + 8 + 32_769));
    assert_eq!(of(&[&ots, &great, &ots]), (4, 30 + 8 + 32_769));
}

#[test]
fn finding_among_many_sections() {
    let mut sections: Vec<u8> = (0..100_000u32)
        .flat_map(|n| chunk(n.to_be_bytes(), b""))
        .collect();
    sections.extend(chunk(*b"CASM", b""));
    let found = find(&file(&sections)).unwrap();
    assert_eq!(found.tag_place, 22 + 800_000);
    sections.extend(chunk(77u32.to_be_bytes(), b""));
    assert_eq!(no(find(&file(&sections))), (4, 22 + 800_008));
}

#[test]
fn group_headers_in_order() {
    assert_eq!(strict(&[0; 32_769]), (3, 0));
    assert_eq!(strict(&[0; 32_768]), (6, 0));
    assert_eq!(strict(b"XSEG\0\0\0"), (2, 0));
    assert_eq!(strict(b"XSEG\xFF\xFF\xFF\xFF"), (6, 0));
    assert_eq!(strict(b"CSEG\xFF\xFF\xFF\xF8"), (2, 0));
    assert_eq!(strict(b"CSEG\0\0\0\0"), (6, 0));
    assert_eq!(strict(&[m(), b"CSEG".to_vec()].concat()), (2, 22));
    assert_eq!(strict(&[m(), b"Sdec\0\0\0\0".to_vec()].concat()), (6, 22));
    for length in 1..8 {
        assert_eq!(strict(&chunk(*b"CSEG", &b"Sdec\0\0\0"[..length])), (2, 8));
    }
}

#[test]
fn the_33rd_group() {
    assert_eq!(read_body(&many(32)).unwrap().len(), 32);
    let after = |last: &[u8]| strict(&[many(32), last.to_vec()].concat());
    assert_eq!(after(&named("xx")), (12, 576));
    assert_eq!(after(&named("00")), (12, 576));
    assert_eq!(after(b"CSEG\0\0\0\0"), (12, 576));
    assert_eq!(after(b"CSEG\0\0\0\x03abc"), (12, 576));
    assert_eq!(after(b"CSEG\0\0\0"), (2, 576));
    assert_eq!(after(b"DSEG\0\0\0\0"), (6, 576));
    assert_eq!(after(b"CSEG\0\0\0\x01"), (2, 576));
    assert_eq!(
        strict(&[many(31), named("00"), named("xx")].concat()),
        (13, 558)
    );
}

#[test]
fn children_in_order() {
    let child = |bytes: &[u8]| strict(&group(&[bytes.to_vec()]));
    assert_eq!(child(b"Xtab\0\0\0"), (2, 17));
    assert_eq!(child(b"Xtab\xFF\xFF\xFF\xFF"), (6, 17));
    assert_eq!(child(b"CSEG\0\0\0\0"), (6, 17));
    assert_eq!(child(b"Sdec\0\0\0\x01B"), (6, 17));
    assert_eq!(child(b"Ctab\0\0\0\x01"), (2, 17));
    assert_eq!(child(b"Ctab\0\0\0\x01\xFF"), (7, 17));
    assert_eq!(child(b"Cntt\0\0\0\x03\xFF\xFF"), (2, 17));
    assert_eq!(child(b"Cntt\0\0\0\x03\xFF\xFF\xFF"), (7, 17));
    assert_eq!(child(b"Cntt\0\0\0\x02\xFF\xFF"), (9, 25));
    assert_eq!(child(b"Cntt\0\0\0\x02\x0F\xFF"), (9, 26));
    assert_eq!(child(b"Cntt\0\0\0\x02\x0F\x80"), (11, 17));
    assert_eq!(strict(&chunk(*b"CSEG", b"Ctab\xFF\xFF\xFF\xFF")), (6, 8));
    assert_eq!(strict(&chunk(*b"CSEG", b"Sdec\0\0\0\0")), (8, 8));
    assert_eq!(strict(&chunk(*b"CSEG", b"Sdec\xFF\xFF\xFF\xF8")), (2, 8));
    let swallowing = [chunk(*b"CSEG", b"Sdec\0\0\0\x05A"), named("B")].concat();
    assert_eq!(strict(&swallowing), (2, 8));
    let late_ctab = [
        ctab(&record(1, &[], None)),
        cntt(1, 4),
        ctab(&record(2, &[], None)),
    ];
    assert_eq!(strict(&group(&late_ctab)), (6, 17 + 35 + 10));
}

#[test]
fn texts() {
    let text = |text: &[u8]| strict(&chunk(*b"CSEG", &chunk(*b"Sdec", text)));
    let fifteen: Vec<String> = (0..16)
        .map(|number| format!("fifteen long {number:02}"))
        .collect();
    let long = fifteen.join(",");
    assert_eq!(long.len(), 255);
    assert_eq!(text(long.as_bytes()), (0, 0));
    assert_eq!(text(format!("{long}x").as_bytes()), (8, 8));
    for good in [
        "A",
        " ",
        "~",
        "A,B",
        "a,A",
        "Main A, Main A",
        "sixteen letters.",
    ] {
        assert_eq!(text(good.as_bytes()), (0, 0), "{good}");
    }
    for bad in [
        "",
        ",",
        "A,",
        ",A",
        "A,,B",
        "A,B,A",
        "A\x1F",
        "\x7F",
        "seventeen letters",
    ] {
        assert_eq!(text(bad.as_bytes()), (8, 8), "{bad}");
    }
    assert_eq!(text(b"A\x80"), (8, 8));
}

#[test]
fn ranges_of_the_27_bytes() {
    for index in 0..27 {
        let (low, high) = match index {
            0 | 11 => (0, 0x0F),
            9 => (0x08, 0x0F),
            10 | 20 => (0, 1),
            13 => (0, 7),
            18 | 22 => (0, 0x0B),
            19 => (0, 0x21),
            21 | 25 => (0, 5),
            23 | 24 => (0, 0x7F),
            26 => (0, 0),
            _ => (0, 0xFF),
        };
        for value in 0..=255u8 {
            let mut body = group(&[ctab(&record(5, &[], None))]);
            body[25 + index] = value;
            let expected = if low <= value && value <= high {
                (0, 0)
            } else {
                (9, 25 + index)
            };
            assert_eq!(strict(&body), expected, "{index} {value}");
        }
    }
}

#[test]
fn values_of_a_cntt() {
    for value in 0..=255u8 {
        let sound = value == 4 || (6..=10).contains(&value) || (0x80..=0x8A).contains(&value);
        let body = group(&[ctab(&record(5, &[], None)), cntt(5, value)]);
        let expected = if sound { (0, 0) } else { (9, 17 + 35 + 9) };
        assert_eq!(strict(&body), expected, "{value}");
        let placed = place_note(&record(5, &[], Some(value)), 0, 60);
        assert_eq!(no(placed), if sound { (0, 0) } else { (9, 21) }, "{value}");
        let written = write_group(b"A", &[positioned(5, Some(value), 1)], 1, &mut [0; 99]);
        assert_eq!(no(written), if sound { (0, 0) } else { (9, 21) }, "{value}");
    }
}

#[test]
fn records_child_by_child() {
    let one = |channel: u8| ctab(&record(channel, &[], None));
    let bad = |channel: u8| ctab(&record(channel, &[(25, 6)], None));
    assert_eq!(strict(&group(&[one(5), bad(5)])), (9, 17 + 35 + 8 + 25));
    assert_eq!(strict(&group(&[one(5), one(5), bad(6)])), (10, 52));
    assert_eq!(strict(&group(&[one(5), bad(6), one(5)])), (9, 52 + 33));
    let three = [one(5), one(2), one(9)];
    let with = |cntts: &[(u8, u8)]| {
        let cntts: Vec<Vec<u8>> = cntts
            .iter()
            .map(|&(channel, value)| cntt(channel, value))
            .collect();
        strict(&group(&[three.to_vec(), cntts].concat()))
    };
    let first = 17 + 3 * 35;
    assert_eq!(with(&[(5, 4), (2, 4), (9, 4)]), (0, 0));
    assert_eq!(with(&[(5, 4), (9, 4)]), (0, 0));
    assert_eq!(with(&[(2, 4), (5, 4)]), (0, 0));
    assert_eq!(with(&[(9, 4), (2, 4), (5, 4)]), (0, 0));
    assert_eq!(with(&[(5, 4), (2, 4), (5, 4)]), (10, first + 20));
    assert_eq!(with(&[(2, 4), (5, 4), (2, 4)]), (10, first + 20));
    assert_eq!(with(&[(9, 4), (2, 4), (7, 4)]), (11, first + 20));
    assert_eq!(with(&[(9, 4), (2, 4), (5, 5)]), (9, first + 29));
    assert_eq!(with(&[(5, 4), (5, 4)]), (10, first + 10));
    assert_eq!(with(&[(5, 4), (5, 5)]), (9, first + 19));
    assert_eq!(with(&[(7, 4), (5, 5)]), (11, first));
    assert_eq!(with(&[(7, 5)]), (9, first + 9));
    assert_eq!(with(&[(16, 5)]), (9, first + 8));
    let sixteen: Vec<Vec<u8>> = (0..16).map(one).collect();
    assert_eq!(strict(&group(&sixteen)), (0, 0));
    assert_eq!(
        strict(&group(&[sixteen.clone(), vec![one(3)]].concat())),
        (10, 17 + 16 * 35)
    );
    assert_eq!(
        strict(&group(&[sixteen, vec![one(16)]].concat())),
        (9, 25 + 16 * 35)
    );
}

/// Document 02, §1: what stood behind a Cntt out of Ctab order now shows. Ctabs 0, 5 and 9.
#[test]
fn behind_cntts_in_another_order() {
    let ctabs: Vec<Vec<u8>> = [0, 5, 9].map(|c| ctab(&record(c, &[], None))).into();
    let first = 17 + 3 * 35;
    let with = |rest: &[Vec<u8>]| group(&[ctabs.clone(), rest.to_vec()].concat());
    let reversed = [cntt(9, 4), cntt(5, 6), cntt(0, 0x80)];
    let behind = |child: &[u8]| strict(&with(&[&reversed[..], &[child.to_vec()]].concat()));
    assert_eq!(strict(&with(&reversed)), (0, 0));
    assert_eq!(
        strict(&with(&[cntt(9, 4), cntt(5, 4), cntt(9, 4)])),
        (10, first + 20)
    );
    assert_eq!(behind(b"Cntt\0\0\0"), (2, first + 30));
    assert_eq!(behind(b"Cntt\0\0\0\x03\x05\x04"), (2, first + 30));
    assert_eq!(behind(b"Cntt\0\0\0\x01\x05"), (7, first + 30));
    assert_eq!(behind(b"Sdec\0\0\0\x01B"), (6, first + 30));
    assert_eq!(behind(&ctab(&record(3, &[], None))), (6, first + 30));
    assert_eq!(behind(&cntt(16, 4)), (9, first + 38));
    assert_eq!(behind(&cntt(5, 5)), (9, first + 39));
    assert_eq!(behind(&cntt(5, 4)), (10, first + 30));
    assert_eq!(behind(&cntt(7, 4)), (11, first + 30));
    let whole = with(&reversed);
    let end = whole.len();
    let then = |rest: &[u8]| strict(&[whole.clone(), rest.to_vec()].concat());
    assert_eq!(then(b"C"), (2, end));
    assert_eq!(then(b"XSEG\0\0\0\0"), (6, end));
    assert_eq!(then(&named("A")), (13, end));
    assert_eq!(then(&named("B,B")), (8, end + 8));
    assert_eq!(strict(&[named("A"), whole.clone()].concat()), (13, 17));
    assert_eq!(then(&[many(31), named("xx")].concat()), (12, end + 558));
    assert_eq!(entries_of(&whole), [(0, end, 0)]);
}

/// Document 02, §4: "Strict body: 3; per group 2, 6, 2, 12, contents, 21, 13", each before the next,
/// in a body whose first group is of the first edition; the second group stands at 52.
#[test]
fn another_edition_among_the_refusals() {
    let first = group_bytes(b"A", &[record(5, &[], None)]);
    let then = |next: &[u8]| strict(&[&first, next].concat());
    let ctb2 = chunk(*b"Ctb2", second_record().bytes());
    let named = |text: &[u8], children: &[u8]| {
        let sdec = chunk(*b"Sdec", text);
        chunk(*b"CSEG", &[&sdec, children].concat())
    };
    let unlike = named(b"A", &ctb2);
    assert_eq!(
        strict(&[&first[..], &unlike, &vec![0; 32_768]].concat()),
        (3, 0)
    );
    assert_eq!(then(&unlike[..7]), (2, 52));
    assert_eq!(then(&[b"XSEG", &unlike[4..]].concat()), (6, 52));
    assert_eq!(then(&unlike[..unlike.len() - 1]), (2, 52));
    assert_eq!(
        then(&named(b"A", &[&ctb2, &b"Ctb2"[..]].concat())),
        (2, 52 + 72)
    );
    assert_eq!(
        then(&named(b"A", &[&ctb2, &ctab(&plain_record())[..]].concat())),
        (6, 124)
    );
    assert_eq!(
        then(&named(b"A", &[&ctb2, &b"Ctb2\0\0\0\x01"[..]].concat())),
        (2, 124)
    );
    assert_eq!(
        then(&named(b"A", &[&ctb2, &chunk(*b"Ctb2", b"")[..]].concat())),
        (7, 124)
    );
    assert_eq!(then(&named(b"A,", &ctb2)), (8, 60));
    let mut bad = second_record();
    bad[39] = 6;
    assert_eq!(
        then(&named(b"A", &chunk(*b"Ctb2", bad.bytes()))),
        (9, 52 + 25 + 39)
    );
    assert_eq!(then(&named(b"A", &[&ctb2[..], &ctb2].concat())), (10, 124));
    assert_eq!(then(&unlike), (21, 52));
    assert_eq!(then(&[&unlike[..], b"C"].concat()), (21, 52));
    assert_eq!(then(&first), (13, 52));
    let more = [many(31), unlike].concat();
    assert_eq!(then(&more), (12, 52 + 31 * 18));
}

#[test]
fn names_across_groups() {
    let bad = group_bytes(b"A", &[record(0, &[(10, 2)], None)]);
    assert_eq!(strict(&[named("A"), bad].concat()), (9, 17 + 25 + 10));
    assert_eq!(
        strict(&[named("A,B"), named("C"), named("D,B"), b"x".to_vec()].concat()),
        (13, 36)
    );
    assert_eq!(strict(&[named("A"), named("B,B")].concat()), (8, 25));
    assert_eq!(
        strict(&[named("A"), named("a"), named("A "), named(" A")].concat()),
        (0, 0)
    );
}

/// Two groups: "A" with channels 5 (a Cntt) and 2, and "B,C" with none.
fn asked() -> Vec<u8> {
    let records = [
        record(5, &[(8, b'x')], Some(0x84)),
        record(2, &[(1, b' ')], None),
    ];
    [group_bytes(b"A", &records), named("B,C")].concat()
}

#[test]
fn questions_in_order() {
    let body = asked();
    let damaged = &body[..body.len() - 1];
    let refusal = strict(damaged);
    assert_eq!(refusal, (2, 97));
    assert_eq!(no(read_group(damaged, 9, &mut [])), refusal);
    assert_eq!(no(read_group(&body, 2, &mut [])), (16, 0));
    assert_eq!(no(read_group(&body, u32::MAX, &mut [])), (16, 0));
    assert_eq!(no(read_group(&body, 0, &mut [plain_record()])), (14, 0));
    assert_eq!(read_group(&body, 1, &mut []), Ok((0, &b"B,C"[..])));
    assert_eq!(no(voice_name(damaged, 9, 99)), refusal);
    assert_eq!(no(voice_name(&body, 2, 99)), (16, 0));
    assert_eq!(no(voice_name(&body, 0, 99)), (15, 0));
    assert_eq!(no(voice_name(&body, 1, 5)), (15, 0));
    assert_eq!(voice_name(&body, 0, 5), Ok(&b"Piano  x"[..]));
    assert_eq!(voice_name(&body, 0, 2), Ok(&b" iano"[..]));
    assert_eq!(no(who_plays(damaged, b"", 12, 34)), refusal);
    assert_eq!(no(who_plays(&body, b"", 12, 0)), (16, 0));
    assert_eq!(no(who_plays(&body, b"", 0, 34)), (16, 0));
    for part in [&b""[..], b"B,C", b"b", b"A ", b"D", b","] {
        assert_eq!(no(who_plays(&body, part, 11, 33)), (15, 0));
    }
    assert_eq!(who_plays(&body, b"A", 11, 33), Ok(vec![5, 2]));
    assert_eq!(who_plays(&body, b"C", 11, 33), Ok(vec![]));
}

#[test]
fn lookups_in_order() {
    let body = asked();
    let damaged = &body[..body.len() - 1];
    let refusal = (2, 97);
    assert_eq!(no(find_part(damaged, b"D")), refusal);
    assert_eq!(no(find_part(&body, b"D")), (15, 0));
    assert_eq!(no(find_part(&[], b"A")), (15, 0));
    assert_eq!(no(find_group(damaged, 9)), refusal);
    assert_eq!(no(find_group(&body, 2)), (16, 0));
    assert_eq!(no(find_group(&[], 0)), (16, 0));
    assert_eq!(no(find_channel(damaged, 9, 99)), refusal);
    assert_eq!(no(find_channel(&body, 2, 99)), (16, 0));
    assert_eq!(no(find_channel(&body, 0, 99)), (15, 0));
    assert_eq!(no(find_channel(&body, 1, 5)), (15, 0));
    let long = vec![0; 32_769];
    assert_eq!(no(find_part(&long, b"A")), (3, 0));
    assert_eq!(no(find_group(&long, 0)), (3, 0));
    assert_eq!(no(find_channel(&long, 0, 0)), (3, 0));
}

#[test]
fn edits_in_order() {
    let mut body = asked();
    let bad = record(4, &[(9, 0), (25, 9)], None);
    let bad_here = record(5, &[(9, 0), (25, 9)], None);
    let last = body.len() - 1;
    assert_eq!(no(edit(&mut body[..last], 9, 9, &bad, false)), (2, 97));
    assert_eq!(no(edit(&mut body, 2, 9, &bad, false)), (16, 0));
    assert_eq!(no(edit(&mut body, 0, 9, &bad, false)), (15, 0));
    assert_eq!(no(edit(&mut body, 0, 5, &bad, false)), (16, 0));
    assert_eq!(no(edit(&mut body, 0, 5, &bad_here, false)), (9, 9));
    assert_eq!(body, asked());
    let mut expected = asked();
    expected[25 + 8] = b'y';
    for position in [0, 1, 2, 255] {
        let new = at_position(record(5, &[(8, b'y')], Some(0xFF)), position);
        let mut body = asked();
        assert_eq!(edit(&mut body, 0, 5, &new, false), Ok(()));
        assert_eq!(body, expected);
    }
}

/// "Edit: body's, 16, 15, 16, 21, 9" (document 02, §4), each before the next.
#[test]
fn another_edition_in_an_edit() {
    let mut body = asked();
    let of = |channel: u8, changes: &[(usize, u8)]| {
        let mut record = second_record();
        record[0] = channel;
        for &(index, value) in changes {
            record[index] = value;
        }
        record
    };
    let bad = [(22, 3), (9, 0)];
    let last = body.len() - 1;
    assert_eq!(
        no(edit(&mut body[..last], 9, 9, &of(4, &bad), false)),
        (2, 97)
    );
    assert_eq!(no(edit(&mut body, 2, 9, &of(4, &bad), false)), (16, 0));
    assert_eq!(no(edit(&mut body, 0, 9, &of(4, &bad), false)), (15, 0));
    assert_eq!(no(edit(&mut body, 0, 5, &of(4, &bad), false)), (16, 0));
    assert_eq!(no(edit(&mut body, 0, 5, &of(5, &bad), false)), (21, 0));
    assert_eq!(no(edit(&mut body, 0, 5, &of(5, &[]), false)), (21, 0));
    assert_eq!(body, asked());
}

/// A file with loose bytes behind a CASM at 22, whose body is damaged, without the part, without the
/// channel, and so on: what is refused first is mended each time. Places of the body count from 30.
#[test]
fn file_edits_in_order() {
    let casm = |body: &[u8]| chunk(*b"CASM", body);
    let lock = |record: Record| {
        let mut record = record;
        record[10] = 1;
        record
    };
    let body = [
        group_bytes(b"A", &[lock(record(5, &[], None)), record(2, &[], None)]),
        named("B,C"),
    ]
    .concat();
    let mut bad = second_record();
    bad[9] = 0;
    let ask = |file: &[u8], part: &[u8], channel: u8, new: &Record, over: bool| {
        let mut lent = file.to_vec();
        let answer = no(edit_file(&mut lent, part, channel, new, over));
        assert_eq!(lent != file, answer == (0, 0));
        answer
    };
    let cut = casm(&body[..body.len() - 1]);
    let loose = file(&[cut.clone(), b"x".to_vec()].concat());
    let of = |file: &[u8], part: &[u8], channel| ask(file, part, channel, &bad, false);
    assert_eq!(of(&[0; 9], b"Z", 9), (1, 0));
    assert_eq!(of(&vec![0; 1_048_577], b"Z", 9), (3, 0));
    assert_eq!(of(&file(&[]), b"Z", 9), (5, 22));
    assert_eq!(of(&loose, b"Z", 9), (2, loose.len() - 1));
    assert_eq!(of(&file(&casm(&[0; 32_769])), b"Z", 9), (3, 22));
    let (number, place) = strict(&body[..body.len() - 1]);
    assert_eq!(of(&file(&cut), b"Z", 9), (number, 30 + place));
    assert_eq!(of(&file(&casm(b"CSEG")), b"Z", 9), (2, 30));
    let file = file(&casm(&body));
    for part in [&b"Z"[..], b"", b"B,C", b"a", b"A "] {
        assert_eq!(of(&file, part, 9), (15, 0));
    }
    assert_eq!(of(&file, b"C", 5), (15, 0));
    assert_eq!(of(&file, b"A", 9), (15, 0));
    assert_eq!(of(&file, b"A", 5), (16, 0));
    bad[0] = 5;
    assert_eq!(ask(&file, b"A", 5, &bad, false), (21, 0));
    let bad = record(5, &[(25, 9)], Some(0xFF));
    assert_eq!(ask(&file, b"A", 5, &bad, false), (22, 10));
    assert_eq!(ask(&file, b"A", 5, &bad, true), (9, 25));
    let new = record(5, &[(8, b'y')], Some(0xFF));
    assert_eq!(ask(&file, b"A", 5, &new, false), (22, 10));
    assert_eq!(ask(&file, b"A", 5, &new, true), (0, 0));
    let new = record(2, &[(8, b'y')], Some(0xFF));
    assert_eq!(ask(&file, b"A", 2, &new, false), (0, 0));
}

/// "Writing: 16, 8, per record 21, 9, 10; then 18, 14" (document 02, §4), each before the next.
#[test]
fn another_edition_in_writing() {
    let write = |text: &[u8], table: &[Record], count: u32, room: usize| {
        no(write_group(text, table, count, &mut vec![0; room]))
    };
    let wrong = positioned(1, None, 9);
    let mut bad = second_record();
    bad[0] = 16;
    let unlike = second_record();
    assert_eq!(write(b"", &[wrong, bad], 3, 0), (16, 0));
    assert_eq!(write(b"", &[wrong, bad], 2, 0), (8, 0));
    assert_eq!(write(b"A", &[wrong, bad], 2, 0), (21, 27));
    assert_eq!(write(b"A", &[wrong, wrong, bad], 3, 0), (10, 27));
    assert_eq!(write(b"A", &[wrong, unlike, wrong], 3, 0), (21, 27));
    assert_eq!(write(b"A", &[unlike, wrong, bad], 3, 0), (21, 47));
    assert_eq!(write(b"A", &[unlike, bad, wrong], 3, 0), (9, 47));
    assert_eq!(write(b"A", &[unlike, unlike, wrong], 3, 0), (10, 47));
    assert_eq!(write(b"A", &[wrong, bad], 1, 0), (18, 0));
    assert_eq!(write(b"A", &[unlike, wrong], 1, 71), (14, 0));
    assert_eq!(write(b"A", &[unlike, wrong], 1, 72), (0, 0));
}

#[test]
fn placement_in_order() {
    let place = |changes: &[(usize, u8)], cntt: Option<u8>, root: u8, note: u8| {
        place_note(&record(0, changes, cntt), root, note)
    };
    let bad_fixed = [(20, 1), (25, 6)];
    let crossed = [(20, 1), (23, 60), (24, 59)];
    let fixed_bypass = [(20, 1), (21, 0)];
    assert_eq!(no(place(&bad_fixed, None, 12, 0)), (16, 0));
    assert_eq!(no(place(&bad_fixed, None, 0, 128)), (16, 0));
    assert_eq!(no(place(&bad_fixed, None, 11, 127)), (9, 25));
    assert_eq!(no(place(&[(20, 1)], None, 11, 127)), (17, 0));
    assert_eq!(no(place(&crossed, None, 0, 60)), (17, 0));
    assert_eq!(place(&crossed, Some(0x80), 0, 66), Ok(54));
    assert_eq!(place(&fixed_bypass, None, 7, 60), Ok(60));
    assert_eq!(no(place(&fixed_bypass, Some(0x81), 7, 60)), (17, 0));
    assert_eq!(no(place(&[(21, 6)], Some(0x80), 7, 60)), (9, 21));
    assert_eq!(no(place(&[(22, 12)], Some(0x05), 7, 60)), (9, 21));
    assert_eq!(no(place(&[(20, 2)], Some(0x05), 7, 60)), (9, 20));
    assert_eq!(place(&[(18, 11), (22, 0)], None, 1, 0), Ok(2));
}

#[test]
fn writing_in_order() {
    let bad = record(1, &[(9, 0)], None);
    let write = |text: &[u8], table: &[Record], count: u32, room: usize| {
        let mut lent = vec![0xAA; room];
        let answer = no(write_group(text, table, count, &mut lent));
        assert!(answer == (0, 0) || lent.iter().all(|&byte| byte == 0xAA));
        answer
    };
    let sound = record(1, &[], None);
    assert_eq!(write(b"", &[bad], 2, 0), (16, 0));
    assert_eq!(write(b"", &[bad], 1, 0), (8, 0));
    assert_eq!(write(b"A", &[bad], 1, 0), (9, 9));
    assert_eq!(write(b"A", &[sound, bad], 2, 0), (9, 27 + 9));
    assert_eq!(write(b"A", &[sound, sound, bad], 3, 0), (10, 27));
    assert_eq!(write(b"A", &[sound, bad, sound], 3, 0), (9, 36));
    assert_eq!(write(b"A", &[sound, bad], 1, 51), (14, 0));
    assert_eq!(write(b"A", &[sound, bad], 1, 52), (0, 0));
    assert_eq!(write(b"A", &[bad], 0, 16), (14, 0));
    assert_eq!(write(b"A", &[bad], 0, 17), (0, 0));
    let sixteen: Vec<Record> = (0..16).map(|channel| record(channel, &[], None)).collect();
    assert_eq!(write(b"A", &sixteen, 16, 17 + 16 * 35), (0, 0));
    assert_eq!(write(b"A", &sixteen, 17, 999), (16, 0));
    let more = [sixteen.clone(), vec![record(7, &[], None)]].concat();
    assert_eq!(write(b"A", &more, 17, 999), (10, 16 * 27));
    let more = [sixteen, vec![record(16, &[], None)]].concat();
    assert_eq!(write(b"A", &more, 17, 999), (9, 16 * 27));
}

/// The number and place of a write of these Cntts and positions, channels from 1 on, with room.
fn written(cntts: &[(Option<u8>, u8)], count: u32, room: usize) -> (u8, usize) {
    let table: Vec<Record> = (1..)
        .zip(cntts)
        .map(|(channel, &(cntt, position))| positioned(channel, cntt, position))
        .collect();
    let mut lent = vec![0xAA; room];
    let answer = no(write_group(b"A", &table, count, &mut lent));
    assert!(answer == (0, 0) || lent.iter().all(|&byte| byte == 0xAA));
    answer
}

/// "refused unless records without a Cntt have 0 and the others 1 to their number, each once".
#[test]
fn positions_in_writing() {
    const NO: Option<u8> = None;
    const C: Option<u8> = Some(0x84);
    let right: [&[(Option<u8>, u8)]; 9] = [
        &[],
        &[(NO, 0)],
        &[(C, 1)],
        &[(NO, 0), (C, 1), (NO, 0)],
        &[(C, 1), (C, 2), (C, 3)],
        &[(C, 3), (C, 2), (C, 1)],
        &[(C, 2), (C, 3), (C, 1)],
        &[(C, 2), (NO, 0), (C, 1)],
        &[(NO, 0), (NO, 0), (NO, 0)],
    ];
    for table in right {
        assert_eq!(written(table, table.len() as u32, 500), (0, 0), "{table:?}");
    }
    let wrong: [&[(Option<u8>, u8)]; 24] = [
        &[(C, 0)],
        &[(C, 2)],
        &[(C, 17)],
        &[(C, 33)],
        &[(C, 129)],
        &[(C, 255)],
        &[(NO, 1)],
        &[(NO, 255)],
        &[(C, 1), (C, 1)],
        &[(C, 2), (C, 2)],
        &[(C, 1), (C, 3)],
        &[(C, 0), (C, 1)],
        &[(C, 1), (C, 0)],
        &[(C, 1), (NO, 1)],
        &[(C, 1), (NO, 2)],
        &[(NO, 1), (C, 2)],
        &[(NO, 0), (C, 2)],
        &[(NO, 1), (C, 0)],
        &[(C, 2), (C, 2), (C, 2)],
        &[(C, 1), (C, 1), (C, 4)],
        &[(C, 1), (C, 2), (C, 17)],
        &[(C, 1), (C, 2), (C, 255)],
        &[(C, 2), (C, 3), (C, 4)],
        &[(C, 3), (C, 1), (NO, 2)],
    ];
    for table in wrong {
        for room in [0, 500] {
            let answer = written(table, table.len() as u32, room);
            assert_eq!(answer, (18, 0), "{table:?}");
        }
    }
    let table = [(C, 2), (C, 1), (C, 2), (NO, 9)];
    assert_eq!(written(&table, 2, 500), (0, 0));
    assert_eq!(written(&table, 1, 500), (18, 0));
    assert_eq!(written(&table, 0, 500), (0, 0));
    assert_eq!(written(&table, 3, 500), (18, 0));
    assert_eq!(written(&[(C, 1), (C, 2), (NO, 1)], 2, 500), (0, 0));
    assert_eq!(written(&[(C, 1), (C, 3), (C, 2)], 2, 500), (18, 0));
    let sixteen: Vec<(Option<u8>, u8)> = (1..=16).rev().map(|position| (C, position)).collect();
    let shifted: Vec<Record> = (0..16)
        .map(|channel| positioned(channel, C, 16 - channel))
        .collect();
    assert_eq!(no(write_group(b"A", &shifted, 16, &mut [0; 737])), (0, 0));
    assert_eq!(no(write_group(b"A", &shifted, 16, &mut [0; 736])), (14, 0));
    assert_eq!(no(write_group(b"A", &shifted, 15, &mut [0; 737])), (18, 0));
    assert_eq!(written(&sixteen, 16, 999), (9, 15 * 27));
}

/// "after each record's 9 and 10 and before 14".
#[test]
fn wrong_positions_among_the_refusals() {
    let write = |text: &[u8], table: &[Record], count: u32, room: usize| {
        no(write_group(text, table, count, &mut vec![0; room]))
    };
    let wrong = positioned(1, Some(4), 2);
    let bad = at_position(record(2, &[(9, 0)], None), 7);
    let bad_cntt = positioned(2, Some(5), 1);
    let again = positioned(1, Some(6), 1);
    assert_eq!(write(b"", &[wrong], 2, 0), (16, 0));
    assert_eq!(write(b"", &[wrong], 1, 0), (8, 0));
    assert_eq!(write(b"A", &[wrong, bad], 2, 0), (9, 27 + 9));
    assert_eq!(write(b"A", &[bad, wrong], 2, 0), (9, 9));
    assert_eq!(write(b"A", &[wrong, bad_cntt], 2, 0), (9, 27 + 21));
    assert_eq!(write(b"A", &[wrong, again], 2, 0), (10, 27));
    assert_eq!(write(b"A", &[wrong, wrong, bad], 3, 0), (10, 27));
    assert_eq!(write(b"A", &[wrong], 1, 0), (18, 0));
    assert_eq!(write(b"A", &[wrong], 1, 61), (18, 0));
    assert_eq!(write(b"A", &[wrong], 1, 62), (18, 0));
    assert_eq!(write(b"A", &[positioned(1, Some(4), 1)], 1, 61), (14, 0));
    assert_eq!(write(b"A", &[positioned(1, Some(4), 1)], 1, 62), (0, 0));
    assert_eq!(write(b"A", &[wrong, bad], 1, 62), (18, 0));
    assert_eq!(write(b"A", &[wrong, bad], 0, 17), (0, 0));
}

#[test]
fn the_screen_judges_the_set_value_alone() {
    let broken = Record::First(First {
        bytes: [0xEE; 26],
        second_table: Some(0xEE),
        position: 0xEE,
    });
    let mut kept = broken;
    assert_eq!(no(set_field(&mut kept, 26, 0xFF)), (16, 0));
    assert_eq!(no(set_field(&mut kept, u32::MAX, 0)), (16, 0));
    assert_eq!(no(set_field(&mut kept, 9, 7)), (9, 9));
    assert_eq!(no(set_field(&mut kept, 21, 6)), (9, 21));
    assert_eq!(kept, broken);
    assert_eq!(set_field(&mut kept, 21, 5), Ok(()));
    assert_eq!(set_field(&mut kept, 0, 15), Ok(()));
    let mut expected = broken;
    expected[21] = 5;
    expected[0] = 15;
    assert_eq!(kept, expected);
}

#[test]
fn salvage_room_and_limit() {
    let seven = Entry {
        place: 7,
        length: 7,
        kind: 7,
    };
    let body = [m(), vec![0]].concat();
    assert_eq!(no(salvage(&[0; 32_769], &mut [])), (3, 0));
    assert_eq!(no(salvage(&body, &mut [])), (14, 0));
    let mut one = [seven];
    assert_eq!(no(salvage(&body, &mut one)), (14, 0));
    assert_eq!(one, [seven]);
    let mut three = [seven; 3];
    assert_eq!(salvage(&body, &mut three), Ok(2));
    assert_eq!(three[2], seven);
    assert_eq!(salvage(&[], &mut []), Ok(0));
}

#[test]
fn salvage_where_cseg_stands_inside() {
    assert_eq!(entries_of(&named("xCSEG")), [(0, 17, 2), (17, 4, 2)]);
    assert_eq!(strict(&named("xCSEG")), (0, 0));
    assert_eq!(
        entries_of(&[m(), m(), n()].concat()),
        [(0, 22, 0), (22, 22, 0), (44, 22, 0)]
    );
    let body = [
        b"CSE".to_vec(),
        m(),
        b"CSEG".to_vec(),
        named("B,B"),
        b"CSEG\0\0\0\0".to_vec(),
    ];
    let expected = [(0, 3, 6), (3, 22, 0), (25, 4, 2), (29, 19, 8), (48, 8, 6)];
    assert_eq!(entries_of(&body.concat()), expected);
    let masked = group_bytes(
        b"A",
        &[record(0, &[(14, 67), (15, 83), (16, 69), (17, 71)], None)],
    );
    assert_eq!(entries_of(&masked), [(0, 39, 2), (39, 13, 2)]);
    let mut short = group(&[ctab(&record(0, &[], None)), cntt(0, 4)]);
    short[7] = 9 + 35;
    assert_eq!(entries_of(&short), [(0, 52, 0), (52, 10, 6)]);
}
