//! The second edition (document 02, §4): each case worked out by hand from the request's words.
//! A Ctb2 is 8 bytes of header and 47 of payload; a group "A" has its first record's tag at 17.

mod common;

use common::{entries_of, m, n, plain_record, second_record, REFUSED_NONE};
use second::body::{read_body, read_group};
use second::calls::answer;
use second::edit::edit;
use second::gen::cntts::{at_position, with_cntt};
use second::lookup::{find_channel, find_part};
use second::place::place_note;
use second::plays::who_plays;
use second::record::Record;
use second::refusal::Refusal;
use second::screen::set_field;
use second::script::{show_bytes, show_record};
use second::voice::voice_name;
use second::write::{chunk, group_bytes, write_group};

fn no<T>(answer: Result<T, Refusal>) -> (u8, usize) {
    let refusal = answer.err().unwrap_or(REFUSED_NONE);
    (refusal.number, refusal.place)
}

fn strict(body: &[u8]) -> (u8, usize) {
    no(read_body(body))
}

/// A record with some bytes set.
fn with(mut record: Record, changes: &[(usize, u8)]) -> Record {
    for &(index, value) in changes {
        record[index] = value;
    }
    record
}

/// A first-edition and a second-edition record of a channel.
fn one(channel: u8) -> Record {
    with(plain_record(), &[(0, channel)])
}

fn two(channel: u8) -> Record {
    with(second_record(), &[(0, channel)])
}

/// A group of the Sdec "A" and these children.
fn group(children: &[Vec<u8>]) -> Vec<u8> {
    let sdec = chunk(*b"Sdec", b"A");
    chunk(*b"CSEG", &[sdec, children.concat()].concat())
}

fn ctb2(record: &Record) -> Vec<u8> {
    chunk([0x43, 0x74, 0x62, 0x32], record.bytes())
}

fn ctab(record: &Record) -> Vec<u8> {
    chunk(*b"Ctab", &[record.bytes(), &[0]].concat())
}

fn cntt(channel: u8, value: u8) -> Vec<u8> {
    chunk(*b"Cntt", &[channel, value])
}

fn named(text: &str) -> Vec<u8> {
    group_bytes(text.as_bytes(), &[])
}

/// A group of one record, of the first and of the second edition: with a name of one letter 52 and
/// 72 bytes.
fn first(text: &str) -> Vec<u8> {
    group_bytes(text.as_bytes(), &[one(3)])
}

fn second(text: &str) -> Vec<u8> {
    group_bytes(text.as_bytes(), &[two(3)])
}

#[test]
fn forty_seven_bytes_read_and_written() {
    let body = group(&[ctb2(&two(3)), ctb2(&two(0))]);
    assert_eq!(body.len(), 17 + 2 * 55);
    let mut table = [plain_record(); 3];
    assert_eq!(read_group(&body, 0, &mut table), Ok((2, &b"A"[..])));
    assert_eq!(table, [two(3), two(0), plain_record()]);
    assert_eq!(no(read_group(&body, 0, &mut table[..1])), (14, 0));
    let mut buffer = [0xAA; 130];
    assert_eq!(write_group(b"A", &table, 2, &mut buffer), Ok(127));
    assert_eq!(buffer[..127], body[..]);
    assert_eq!(buffer[127..], [0xAA; 3]);
    assert_eq!(
        no(write_group(b"A", &table, 2, &mut buffer[..126])),
        (14, 0)
    );
}

/// What may stand at each of the 47 bytes, the three tables left out.
fn range(index: usize) -> (u8, u8) {
    match index {
        0 | 11 => (0, 0x0F),
        9 => (0x08, 0x0F),
        10 => (0, 1),
        13 => (0, 7),
        18 | 24 | 30 | 36 => (0, 0x0B),
        19 => (0, 0x21),
        20 | 21 | 25 | 26 | 31 | 32 | 37 | 38 => (0, 0x7F),
        22 | 28 | 34 => (0, 2),
        27 | 33 | 39 => (0, 5),
        _ => (0, 0xFF),
    }
}

/// Whether the reader, the writer, placement and the screen find a value sound at an index; all
/// others of the record are.
fn judged(record: &Record, index: usize, value: u8, sound: bool) {
    let changed = with(*record, &[(index, value)]);
    let expected = |place| if sound { (0, 0) } else { (9, place) };
    let what = format!("{index} {value:02X} of {}", show_record(record));
    let body = group(&[ctb2(&changed)]);
    assert_eq!(strict(&body), expected(25 + index), "{what}");
    let written = write_group(b"A", &[changed], 1, &mut [0; 99]);
    assert_eq!(no(written), expected(index), "{what}");
    let placed = no(place_note(&changed, 0, 60));
    assert_eq!(placed.0 == 9, !sound, "{what}");
    let mut pressed = *record;
    let answer = no(set_field(&mut pressed, index as u32, value));
    assert_eq!(answer, expected(index), "{what}");
    assert_eq!(pressed, if sound { changed } else { *record });
}

#[test]
fn ranges_of_the_47_bytes() {
    let tables = [23, 29, 35];
    let suits_every_rule = with(second_record(), &[(35, 0x82)]);
    for index in (0..47).filter(|index| !tables.contains(index)) {
        let (low, high) = range(index);
        for value in 0..=255 {
            let sound = low <= value && value <= high;
            judged(&suits_every_rule, index, value, sound);
        }
    }
}

/// "Rule is 00-02; table is 00-0A, or 00-02 under rule 2, each with or without bit 7 for bass":
/// each set's table by the rule right before it, whatever the rules of the other two.
#[test]
fn tables_under_their_own_rules() {
    for rules in 0..27u8 {
        let rules = [rules % 3, rules / 3 % 3, rules / 9];
        let ruled = with(
            second_record(),
            &[(22, rules[0]), (28, rules[1]), (34, rules[2])],
        );
        let ruled = with(ruled, &[(23, 0x81), (29, 0x02), (35, 0x00)]);
        for (index, rule) in [23, 29, 35].into_iter().zip(rules) {
            let highest = if rule == 2 { 0x02 } else { 0x0A };
            for value in 0..=255u8 {
                let sound = value <= highest || (0x80..=0x80 + highest).contains(&value);
                judged(&ruled, index, value, sound);
            }
        }
    }
}

/// "40-46 are unexplained and kept, all values allowed", the last one too.
#[test]
fn the_tail_is_kept() {
    for tail in [[0xFF; 7], [1, 2, 3, 4, 5, 6, 7], *b"CSEGCtb"] {
        let mut record = two(5);
        record[40..].copy_from_slice(&tail);
        let body = group_bytes(b"A", &[record]);
        assert_eq!(&body[65..72], &tail);
        let mut table = [plain_record()];
        assert_eq!(read_group(&body, 0, &mut table), Ok((1, &b"A"[..])));
        assert_eq!(table, [record]);
        let mut edited = group_bytes(b"A", &[two(5)]);
        assert_eq!(edit(&mut edited, 0, 5, &record, false), Ok(()));
        assert_eq!(edited, body);
    }
}

/// The letters CSEG in a tail, a fifth place where a sound group lists as damaged.
#[test]
fn cseg_in_the_tail() {
    for start in 40..=43 {
        let mut record = two(5);
        record[start..start + 4].copy_from_slice(b"CSEG");
        let body = group_bytes(b"A", &[record]);
        assert_eq!(strict(&body), (0, 0));
        let cut = 25 + start;
        let pieces = [(0, cut, 2), (cut, 72 - cut, 2)];
        assert_eq!(entries_of(&body), pieces);
    }
}

/// "6 for a Ctb2 beside a Ctab or Cntt in a group": the later of the two; and a Cntt that no Ctab
/// stands before is 11.
#[test]
fn beside_a_ctab_or_cntt() {
    let (a, b) = (ctab(&one(1)), ctb2(&two(2)));
    let of = |children: &[Vec<u8>]| strict(&group(children));
    assert_eq!(of(&[a.clone(), b.clone()]), (6, 17 + 35));
    assert_eq!(of(&[b.clone(), a.clone()]), (6, 17 + 55));
    assert_eq!(of(&[b.clone(), cntt(2, 4)]), (6, 17 + 55));
    assert_eq!(of(&[a.clone(), cntt(1, 4), b.clone()]), (6, 17 + 35 + 10));
    assert_eq!(of(&[cntt(2, 4), b.clone()]), (11, 17));
    assert_eq!(of(&[cntt(2, 5), b.clone()]), (9, 26));
    assert_eq!(of(&[b.clone(), chunk(*b"Sdec", b"B")]), (6, 17 + 55));
    assert_eq!(of(&[b.clone(), b"CSEG\0\0\0\0".to_vec()]), (6, 17 + 55));
    for tag in [b"ctb2", b"Ctb3", b"Ctb1", b"CTB2", b"Ctab"] {
        let strange = chunk(*tag, two(4).bytes());
        assert_eq!(of(&[b.clone(), strange]), (6, 17 + 55));
    }
    assert_eq!(strict(&chunk(*b"CSEG", &b)), (6, 8));
    assert_eq!(of(&[a, b"Ctb2\0\0\0".to_vec()]), (2, 52));
    assert_eq!(of(&[b.clone(), b"Ctab\xFF\xFF\xFF\xFF".to_vec()]), (6, 72));
    assert_eq!(of(&[b, b"Ctb2\0\0\0\x2F".to_vec()]), (2, 72));
}

#[test]
fn seven_when_not_47() {
    let bytes = [two(2).bytes(), &[0; 50]].concat();
    let of = |tag: &[u8; 4], length: usize| strict(&group(&[chunk(*tag, &bytes[..length])]));
    for length in [0, 1, 2, 26, 27, 46, 48, 94] {
        assert_eq!(of(b"Ctb2", length), (7, 17), "{length}");
    }
    assert_eq!(of(b"Ctb2", 47), (0, 0));
    assert_eq!(of(b"Ctab", 47), (7, 17));
    let mut bad = group(&[chunk(*b"Ctb2", &bytes[..46])]);
    bad[25] = 0x10;
    assert_eq!(strict(&bad), (7, 17));
}

/// Child by child 9 and then 10, as for Ctabs.
#[test]
fn nine_and_ten_of_ctb2s() {
    let bad = |channel: u8| with(two(channel), &[(39, 6)]);
    let of = |records: &[Record]| strict(&group_bytes(b"A", records));
    assert_eq!(of(&[two(5), bad(5)]), (9, 17 + 55 + 8 + 39));
    assert_eq!(of(&[two(5), two(5), bad(6)]), (10, 72));
    assert_eq!(of(&[two(5), bad(6), two(5)]), (9, 72 + 8 + 39));
    let sixteen: Vec<Record> = (0..16).map(two).collect();
    assert_eq!(of(&sixteen), (0, 0));
    assert_eq!(of(&[&sixteen[..], &[two(3)]].concat()), (10, 17 + 16 * 55));
    assert_eq!(of(&[&sixteen[..], &[two(16)]].concat()), (9, 25 + 16 * 55));
    let changed = with(two(1), &[(22, 3), (23, 0x0B), (46, 0xFF)]);
    assert_eq!(of(&[changed]), (9, 25 + 22));
    assert_eq!(of(&[with(changed, &[(22, 2)])]), (9, 25 + 23));
    assert_eq!(of(&[with(changed, &[(21, 0x80)])]), (9, 25 + 21));
}

/// "A group of another edition than the first group with records, place its tag".
#[test]
fn editions_of_a_body() {
    let of = |groups: &[Vec<u8>]| strict(&groups.concat());
    assert_eq!(of(&[first("A"), second("B")]), (21, 52));
    assert_eq!(of(&[second("A"), first("B")]), (21, 72));
    assert_eq!(of(&[first("A"), first("B"), second("C")]), (21, 104));
    assert_eq!(of(&[second("A"), second("B"), first("C")]), (21, 144));
    assert_eq!(of(&[first("A"), second("B"), first("C")]), (21, 52));
    assert_eq!(of(&[first("A"), first("B")]), (0, 0));
    assert_eq!(of(&[second("A"), second("B"), second("C")]), (0, 0));
}

/// "(one without records suits either)", and does not say which edition the body is of.
#[test]
fn groups_without_records() {
    let of = |groups: &[Vec<u8>]| strict(&groups.concat());
    assert_eq!(of(&[m(), second("B")]), (0, 0));
    assert_eq!(of(&[m(), first("B")]), (0, 0));
    assert_eq!(of(&[second("B"), m(), n()]), (0, 0));
    assert_eq!(
        of(&[m(), n(), second("B"), named("C"), second("D")]),
        (0, 0)
    );
    assert_eq!(of(&[m(), second("B"), n(), first("C")]), (21, 116));
    assert_eq!(of(&[m(), first("B"), n(), second("C")]), (21, 96));
    assert_eq!(of(&[first("A"), m(), first("C"), n()]), (0, 0));
    assert_eq!(of(&[second("A"), m(), n(), first("C")]), (21, 116));
}

/// "after its contents and before 13"; 12 stands before the contents, and the next group's header
/// behind all of it.
#[test]
fn twenty_one_among_the_refusals() {
    let of = |groups: &[Vec<u8>]| strict(&groups.concat());
    let bad = group_bytes(b"B", &[with(two(3), &[(46, 9), (9, 0)])]);
    assert_eq!(of(&[first("A"), bad.clone()]), (9, 52 + 25 + 9));
    assert_eq!(of(&[first("A"), second("A")]), (21, 52));
    assert_eq!(of(&[second("A"), first("A")]), (21, 72));
    assert_eq!(of(&[second("A"), second("A")]), (13, 72));
    assert_eq!(of(&[first("A"), m(), second("Main A")]), (21, 74));
    assert_eq!(of(&[first("A"), named("A"), second("B")]), (13, 52));
    assert_eq!(of(&[first("A"), second("B"), b"C".to_vec()]), (21, 52));
    assert_eq!(
        of(&[first("A"), second("B"), b"XSEG\0\0\0\0".to_vec()]),
        (21, 52)
    );
    assert_eq!(of(&[first("A"), second("B,B")]), (8, 60));
    let mut cut = second("B");
    cut.pop();
    assert_eq!(of(&[first("A"), cut]), (2, 52));
    let ten_again = group_bytes(b"B", &[two(3), two(3)]);
    assert_eq!(of(&[first("A"), ten_again]), (10, 52 + 72));
    let many: Vec<Vec<u8>> = (1..32).map(|number| named(&format!("{number}"))).collect();
    let length: usize = many.iter().map(Vec::len).sum();
    let before = |last: Vec<u8>| of(&[&[first("A")][..], &many, &[last]].concat());
    assert_eq!(before(second("B")), (12, 52 + length));
    let of_31 = |last: Vec<u8>| of(&[&[first("A")][..], &many[1..], &[last]].concat());
    assert_eq!(of_31(second("B")), (21, 52 + length - 17));
    assert_eq!(of_31(first("B")), (0, 0));
}

/// A body of the longest groups: 28 fit, 29 are over 32,768 bytes.
#[test]
fn the_longest_groups() {
    let records: Vec<Record> = (0..16).map(two).collect();
    let names = |number: usize| -> String {
        let names: Vec<String> = (0..15)
            .map(|k| format!("{number:02} name {k:07}."))
            .collect();
        format!("{},x{number:02}", names.join(","))
    };
    let of = |count: usize| -> Vec<u8> {
        (0..count)
            .flat_map(|number| group_bytes(&names(number).as_bytes()[..254], &records))
            .collect()
    };
    assert_eq!(of(1).len(), 1_150);
    assert_eq!(read_body(&of(28)).map(|groups| groups.len()), Ok(28));
    assert_eq!(strict(&of(29)), (3, 0));
}

/// "The salvage list takes each group by itself, so it may show both."
#[test]
fn salvage_shows_both() {
    let body = [first("A"), second("A"), m(), first("B"), second("C")].concat();
    assert_eq!(strict(&body), (21, 52));
    let expected = [
        (0, 52, 0),
        (52, 72, 0),
        (124, 22, 0),
        (146, 52, 0),
        (198, 72, 0),
    ];
    assert_eq!(entries_of(&body), expected);
    let beside = group(&[ctab(&one(1)), ctb2(&two(2))]);
    let short = group(&[chunk(*b"Ctb2", &[0; 27])]);
    let bad = group_bytes(b"A", &[with(two(3), &[(35, 0x0B)])]);
    let again = group_bytes(b"A", &[two(3), two(3)]);
    let (a, b, c, d) = (beside.len(), short.len(), bad.len(), again.len());
    assert_eq!(
        entries_of(&[beside, short, bad, again, b"Ctb2".to_vec()].concat()),
        [(0, a, 6), (a, b, 7), (a + b, c, 9), (a + b + c, d + 4, 10)]
    );
    let mut shortened = group(&[ctb2(&two(1)), ctb2(&two(2))]);
    shortened[7] = 9 + 55;
    assert_eq!(entries_of(&shortened), [(0, 72, 0), (72, 55, 6)]);
}

fn written(text: &[u8], table: &[Record], count: u32, room: usize) -> (u8, usize) {
    let mut lent = vec![0xAA; room];
    let answer = no(write_group(text, table, count, &mut lent));
    assert!(answer == (0, 0) || lent.iter().all(|&byte| byte == 0xAA));
    answer
}

/// "Places in writing count 47 a record".
#[test]
fn places_in_writing() {
    for row in 0..3 {
        for index in [0, 9, 22, 23, 28, 34, 39] {
            let mut table = [two(1), two(2), two(3)];
            table[row][index] = 0xFF;
            assert_eq!(written(b"A", &table, 3, 0), (9, 47 * row + index));
        }
    }
    assert_eq!(written(b"A", &[two(1), two(1)], 2, 0), (10, 47));
    assert_eq!(written(b"A", &[two(1), two(2), two(1)], 3, 0), (10, 94));
    let forbidden = with(two(2), &[(28, 2), (29, 3)]);
    assert_eq!(written(b"A", &[two(1), forbidden], 2, 0), (9, 47 + 29));
    let sixteen: Vec<Record> = (0..16).map(two).collect();
    assert_eq!(written(b"A", &sixteen, 16, 17 + 16 * 55), (0, 0));
    assert_eq!(written(b"A", &sixteen, 16, 16 + 16 * 55), (14, 0));
    assert_eq!(written(b"A", &sixteen, 17, 2_048), (16, 0));
    let more = [sixteen, vec![two(16)]].concat();
    assert_eq!(written(b"A", &more, 17, 2_048), (9, 16 * 47));
}

/// "A written record unlike the first in edition (its byte 0, before its 9)": the place counts by
/// the first record's size, and what earlier records have comes before.
#[test]
fn editions_in_writing() {
    let bad_one = with(one(3), &[(9, 0)]);
    let bad_two = with(two(3), &[(9, 0)]);
    assert_eq!(written(b"A", &[one(1), two(2)], 2, 0), (21, 27));
    assert_eq!(written(b"A", &[two(1), one(2)], 2, 0), (21, 47));
    assert_eq!(written(b"A", &[one(1), one(2), two(3)], 3, 0), (21, 54));
    assert_eq!(written(b"A", &[two(1), two(2), one(3)], 3, 0), (21, 94));
    assert_eq!(written(b"A", &[one(1), two(2), one(3)], 3, 0), (21, 27));
    assert_eq!(written(b"A", &[one(1), bad_two], 2, 0), (21, 27));
    assert_eq!(written(b"A", &[two(1), bad_one], 2, 0), (21, 47));
    assert_eq!(written(b"A", &[bad_one, two(1)], 2, 0), (9, 9));
    assert_eq!(written(b"A", &[one(1), bad_one, two(2)], 3, 0), (9, 36));
    assert_eq!(written(b"A", &[one(1), one(1), two(2)], 3, 0), (10, 27));
    assert_eq!(written(b"A", &[two(1), two(1), one(2)], 3, 0), (10, 47));
    assert_eq!(written(b"A", &[one(1), two(1)], 2, 0), (21, 27));
    assert_eq!(written(b"A", &[one(1), two(2), one(1)], 3, 0), (21, 27));
    assert_eq!(written(b"A", &[one(1), two(2), bad_one], 3, 0), (21, 27));
    assert_eq!(written(b"", &[one(1), two(2)], 2, 0), (8, 0));
    assert_eq!(written(b"", &[one(1), two(2)], 3, 0), (16, 0));
    let positioned = at_position(one(1), 7);
    assert_eq!(written(b"A", &[positioned, two(2)], 2, 0), (21, 27));
    assert_eq!(written(b"A", &[positioned, two(2)], 1, 52), (18, 0));
}

/// The editions of records past the count play no part.
#[test]
fn past_the_count() {
    assert_eq!(written(b"A", &[one(1), two(2)], 1, 52), (0, 0));
    assert_eq!(written(b"A", &[two(1), one(2)], 1, 72), (0, 0));
    assert_eq!(written(b"A", &[two(1), one(2)], 1, 71), (14, 0));
    assert_eq!(written(b"A", &[one(1), two(2)], 0, 17), (0, 0));
    assert_eq!(written(b"A", &[two(1), two(2), one(9)], 2, 127), (0, 0));
}

/// Group "A" of Ctb2s 5 and 2, then "B,C" without records; or the same of Ctabs.
fn asked(record: fn(u8) -> Record) -> Vec<u8> {
    [group_bytes(b"A", &[record(5), record(2)]), named("B,C")].concat()
}

/// "An edit's record unlike the body's (place 0, before 9)", behind an edit's source channel.
#[test]
fn editions_in_an_edit() {
    for (mut body, own, other) in [
        (asked(two), two as fn(u8) -> Record, one as fn(u8) -> Record),
        (asked(one), one, two),
    ] {
        let before = body.clone();
        let bad = |record: Record| with(record, &[(9, 0)]);
        let end = body.len() - 1;
        assert_eq!(no(edit(&mut body[..end], 9, 9, &other(4), false)).0, 2);
        assert_eq!(no(edit(&mut body, 2, 9, &other(4), false)), (16, 0));
        assert_eq!(no(edit(&mut body, 0, 9, &other(4), false)), (15, 0));
        assert_eq!(no(edit(&mut body, 1, 5, &other(5), false)), (15, 0));
        assert_eq!(no(edit(&mut body, 0, 5, &other(4), false)), (16, 0));
        assert_eq!(no(edit(&mut body, 0, 5, &bad(other(4)), false)), (16, 0));
        assert_eq!(no(edit(&mut body, 0, 5, &bad(other(5)), false)), (21, 0));
        assert_eq!(no(edit(&mut body, 0, 5, &other(5), false)), (21, 0));
        assert_eq!(no(edit(&mut body, 0, 5, &bad(own(5)), false)), (9, 9));
        assert_eq!(body, before);
        assert_eq!(edit(&mut body, 0, 5, &own(5), false), Ok(()));
        assert_eq!(body, before);
    }
}

/// "Only that Ctab's 27 bytes may change", here the Ctb2's 47; the new record is read only, so the
/// edits after it ask to override (document 02, §6).
#[test]
fn an_edit_of_47_bytes() {
    let mut new = [0xFF; 47];
    new[0] = 2;
    new[9..20].copy_from_slice(&[8, 1, 0, 0, 7, 1, 2, 3, 4, 11, 0x21]);
    new[20..40].copy_from_slice(&[
        127, 0, 2, 0x82, 0, 127, 0, 5, 1, 0x8A, 1, 1, 2, 4, 0, 0x80, 2, 3, 4, 1,
    ]);
    let new = Record::Second(new);
    let mut body = asked(two);
    assert_eq!(edit(&mut body, 0, 2, &new, false), Ok(()));
    let mut expected = asked(two);
    expected[17 + 55 + 8..17 + 110].copy_from_slice(new.bytes());
    assert_eq!(body, expected);
    for index in [22, 23, 28, 29, 34, 35, 39] {
        let bad = with(two(2), &[(index, 0x7F)]);
        assert_eq!(no(edit(&mut body, 0, 2, &bad, true)), (9, index));
        assert_eq!(body, expected);
    }
    let forbidden = with(two(2), &[(34, 2), (35, 0x83)]);
    assert_eq!(no(edit(&mut body, 0, 2, &forbidden, true)), (9, 35));
}

/// "The screen's index runs 0-46, a table judged by the rule the record then has (over 2 counts
/// as 0)"; the set value alone is judged.
#[test]
fn the_screen() {
    let broken = Record::Second([0xEE; 47]);
    let press = |record: &Record, index: u32, value: u8| {
        let mut pressed = *record;
        let answer = no(set_field(&mut pressed, index, value));
        let expected = match answer {
            (0, 0) => with(*record, &[(index as usize, value)]),
            _ => *record,
        };
        assert_eq!(pressed, expected);
        answer
    };
    assert_eq!(press(&broken, 46, 0xFF), (0, 0));
    for index in [47, 48, 255, u32::MAX] {
        assert_eq!(press(&two(3), index, 0), (16, 0));
    }
    assert_eq!(press(&one(3), 26, 0), (16, 0));
    assert_eq!(press(&one(3), 46, 0), (16, 0));
    for (rule, set) in [22, 28, 34].into_iter().zip([0x0A, 0x8A, 0x03]) {
        let table = rule as u32 + 1;
        for over in [3, 0x7F, 0x80, 0x82, 0xEE, 0xFF] {
            let ruled = with(broken, &[(rule, over)]);
            assert_eq!(press(&ruled, table, set), (0, 0));
            assert_eq!(press(&ruled, table, 0x0B), (9, rule + 1));
        }
        let guitar = with(broken, &[(rule, 2)]);
        assert_eq!(press(&guitar, table, set), (9, rule + 1));
        assert_eq!(press(&guitar, table, 0x82), (0, 0));
        let tabled = with(two(3), &[(rule + 1, set)]);
        assert_eq!(press(&tabled, rule as u32, 2), (0, 0));
        assert_eq!(press(&tabled, rule as u32, 3), (9, rule));
        let now = with(tabled, &[(rule, 2)]);
        assert_eq!(no(place_note(&now, 0, 60)), (9, rule + 1));
        assert_eq!(written(b"A", &[now], 1, 99), (9, rule + 1));
    }
}

/// The set that a note uses, by limits of one key each.
fn set_of(lowest: u8, highest: u8, note: u8) -> &'static str {
    let one_key = [
        (20, lowest),
        (21, highest),
        (25, 10),
        (26, 21),
        (31, 50),
        (32, 61),
        (37, 90),
        (38, 101),
    ];
    match place_note(&with(two(3), &one_key), 0, note) {
        Ok(10..=21) => "low",
        Ok(50..=61) => "middle",
        Ok(90..=101) => "high",
        other => panic!("{other:?}"),
    }
}

/// "A source note below byte 20 uses the low set, else one above byte 21 the high set, else the
/// middle set."
#[test]
fn which_set_a_note_uses() {
    for (note, set) in [
        (0, "low"),
        (47, "low"),
        (48, "middle"),
        (72, "middle"),
        (73, "high"),
        (127, "high"),
    ] {
        assert_eq!(set_of(48, 72, note), set, "{note}");
    }
    for note in [0, 60, 127] {
        assert_eq!(set_of(0, 127, note), "middle");
    }
    assert_eq!(set_of(127, 127, 126), "low");
    assert_eq!(set_of(127, 127, 127), "middle");
    assert_eq!(set_of(0, 0, 0), "middle");
    assert_eq!(set_of(0, 0, 1), "high");
    for (note, set) in [
        (39, "low"),
        (40, "low"),
        (41, "low"),
        (79, "low"),
        (80, "high"),
        (81, "high"),
    ] {
        assert_eq!(set_of(80, 40, note), set, "{note}");
    }
    assert_eq!(set_of(61, 60, 60), "low");
    assert_eq!(set_of(61, 60, 61), "high");
}

/// Each set has its own rule, table, high key and limits; the source root is the record's.
#[test]
fn placing_by_a_set() {
    let record = with(
        two(3),
        &[
            (18, 2),
            (22, 1),
            (23, 0x80),
            (24, 0),
            (28, 0),
            (29, 0x8A),
            (30, 5),
            (34, 1),
            (35, 1),
        ],
    );
    let place = |root: u8, note: u8| place_note(&record, root, note);
    assert_eq!(place(5, 40), Ok(40));
    assert_eq!(place(11, 0), Ok(0));
    assert_eq!(place(5, 60), Ok(63));
    assert_eq!(place(6, 60), Ok(52));
    assert_eq!(no(place(5, 73)), (17, 0));
    let fixed_bypass = with(record, &[(35, 0)]);
    assert_eq!(place_note(&fixed_bypass, 5, 73), Ok(73));
    let narrow = with(record, &[(31, 60), (32, 63)]);
    assert_eq!(place_note(&narrow, 5, 63), Ok(54));
    assert_eq!(place_note(&narrow, 5, 60), Ok(63));
}

/// "Placement under rule 2 always answers 17, after 9": in the set that the note uses, with table
/// 00 or 80 too.
#[test]
fn rule_2_answers_17() {
    for (rule, note) in [(22, 40), (28, 60), (34, 80)] {
        for table in [0x00, 0x01, 0x02, 0x80, 0x81, 0x82] {
            let guitar = with(two(3), &[(rule, 2), (rule + 1, table)]);
            assert_eq!(no(place_note(&guitar, 0, note)), (17, 0));
            let others = [40, 60, 80].into_iter().filter(|&other| other != note);
            for other in others {
                assert_eq!(no(place_note(&guitar, 0, other)), (0, 0));
            }
            assert_eq!(no(place_note(&guitar, 12, note)), (16, 0));
            assert_eq!(no(place_note(&guitar, 0, 128)), (16, 0));
            let bad = with(guitar, &[(39, 6)]);
            assert_eq!(no(place_note(&bad, 0, note)), (9, 39));
        }
        let forbidden = with(two(3), &[(rule, 2), (rule + 1, 3)]);
        for note in [40, 60, 80] {
            assert_eq!(no(place_note(&forbidden, 0, note)), (9, rule + 1));
        }
    }
    let first = with(one(3), &[(20, 2)]);
    assert_eq!(no(place_note(&first, 0, 60)), (9, 20));
}

/// 9 looks at all 47 bytes, the sets that the note does not use too, and names the first.
#[test]
fn nine_in_placing() {
    for note in [40, 60, 80] {
        for index in 20..40 {
            let bad = with(two(3), &[(index, 0xFF)]);
            assert_eq!(no(place_note(&bad, 0, note)), (9, index));
            let later = with(bad, &[(39, 0xFF)]);
            assert_eq!(no(place_note(&later, 0, note)), (9, index));
        }
        let tail = with(two(3), &[(40, 0xFF), (46, 0xFF)]);
        assert_eq!(no(place_note(&tail, 0, note)), (0, 0));
    }
}

/// Under rules 0 and 1 a note is placed as by a first-edition record that has bytes 0-19 and the
/// set's rule, high key, limits and retrigger, and the set's table as its Cntt.
#[test]
fn a_set_is_as_a_first_edition_record() {
    for table in (0x80..=0x8A).chain([0x04]).chain(0x06..=0x0A) {
        for (rule, key, low, high) in [(0, 5, 0, 127), (0, 11, 60, 63), (1, 3, 9, 8)] {
            let set = [rule, table, key, low, high, 3];
            let mut first = one(3);
            first[18] = 7;
            first[20..26].copy_from_slice(&[rule, 0, key, low, high, 3]);
            let first = with_cntt(first, Some(table));
            let mut second = with(two(3), &[(18, 7)]);
            for start in [22, 28, 34] {
                second[start..start + 6].copy_from_slice(&set);
            }
            for root in 0..=12 {
                for note in 0..=128 {
                    let placed = place_note(&second, root, note);
                    assert_eq!(placed, place_note(&first, root, note));
                }
            }
        }
    }
}

/// Who plays, voice names and lookups are as before.
#[test]
fn questions_of_a_second_edition_body() {
    let mut records = [two(9), two(4)];
    records[0][11..18].copy_from_slice(&[0x08, 0x01, 0x02, 0, 0, 0, 1]);
    records[1][1..9].copy_from_slice(b" Voice  ");
    let body = [m(), group_bytes(b"x,Intro", &records), second("Main B")].concat();
    assert_eq!(who_plays(&body, b"Intro", 0, 0), Ok(vec![9, 4]));
    assert_eq!(who_plays(&body, b"x", 11, 33), Ok(vec![9, 4]));
    assert_eq!(who_plays(&body, b"x", 1, 33), Ok(vec![4]));
    assert_eq!(who_plays(&body, b"Main A", 0, 0), Ok(vec![]));
    assert_eq!(no(who_plays(&body, b"Main A", 12, 0)), (16, 0));
    assert_eq!(no(who_plays(&body, b"Main C", 0, 0)), (15, 0));
    assert_eq!(voice_name(&body, 1, 4), Ok(&b" Voice"[..]));
    assert_eq!(voice_name(&body, 2, 3), Ok(&b"Piano"[..]));
    assert_eq!(no(voice_name(&body, 1, 3)), (15, 0));
    assert_eq!(no(voice_name(&body, 0, 9)), (15, 0));
    assert_eq!(find_part(&body, b"Main B"), Ok(2));
    assert_eq!(find_channel(&body, 1, 9), Ok((0, 22 + 23 + 8)));
    assert_eq!(find_channel(&body, 1, 4), Ok((1, 22 + 23 + 55 + 8)));
}

fn is(line: &str, expected: &str) {
    assert_eq!(answer(line.as_bytes()), expected, "{line}");
}

/// The last number of `where`: "the group's edition, 1 or 2, and 0 for a group without records".
#[test]
fn where_tells_the_edition() {
    let body = [m(), group_bytes(b"A", &[two(9), two(4)]), named("B")].concat();
    let hex = show_bytes(&body);
    is(&format!("where {hex} 0"), "ok 0 22 16 6 22 0 22 0 0");
    is(&format!("where {hex} 1"), "ok 22 127 38 1 39 2 149 0 2");
    is(&format!("where {hex} 2"), "ok 149 17 165 1 166 0 166 0 0");
    let body = [first("A"), named("B")].concat();
    let hex = show_bytes(&body);
    is(&format!("where {hex} 0"), "ok 0 52 16 1 17 1 52 0 1");
    is(&format!("where {hex} 1"), "ok 52 17 68 1 69 0 69 0 0");
}

/// "REC may also be 94 hex digits (47 bytes) with nothing behind them".
#[test]
fn lines_of_the_second_edition() {
    let rec = show_record(&two(3));
    let other = show_record(&one(3));
    assert_eq!(rec.len(), 94);
    let hex = show_bytes(&second("A"));
    is(&format!("group {hex} 0 2"), &format!("ok 1 41 {rec} kept"));
    is(&format!("group {hex} 0 0"), "refused 14 0 kept");
    is(&format!("write 41 1 72 {rec}"), &format!("ok 72 {hex}"));
    is(&format!("write 41 2 2 {rec} {other}"), "refused 21 47 aaaa");
    is(&format!("write 41 2 2 {other} {rec}"), "refused 21 27 aaaa");
    is(&format!("edit {hex} 0 3 {rec} 0"), &format!("ok {hex}"));
    is(
        &format!("edit {hex} 0 3 {other} 1"),
        &format!("refused 21 0 {hex}"),
    );
    is(&format!("place {rec} 0 60"), "ok 60");
    is(
        &format!("screen {rec} 46 255"),
        &format!("ok {}ff", &rec[..92]),
    );
    is(
        &format!("screen {rec} 47 0"),
        &format!("refused 16 0 {rec}"),
    );
    for bad in [
        format!("{rec}:-:0"),
        format!("{rec}:"),
        format!("{rec}00"),
        rec[..92].to_string(),
        rec[..93].to_string(),
        rec[..52].to_string(),
        rec.to_uppercase(),
        format!("{}:-:0", &rec[..54]),
    ] {
        is(&format!("place {bad} 0 60"), "bad");
        is(&format!("screen {bad} 0 0"), "bad");
        is(&format!("write 41 0 60 {other} {bad}"), "bad");
    }
}
