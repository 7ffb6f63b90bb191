//! The facts of style files in JSON: the two samples of the tool's design, every sentence of a
//! refusal with its detail and place, chords, and the files that a seed gives.

mod common;

use common::{m, n};
use second::bytes::{Tag, CNTT, CSEG, SDEC};
use second::gen::ctb2;
use second::gen::draft::{cntt, record_chunk, Chunk, Draft, StyleDraft};
use second::gen::sound::plain;
use second::gen::tool_files::tool_files;
use second::report::chord::chord;
use second::report::plays::who_plays;
use second::report::reading::{read, Kind};
use second::report::reason::{Reason, REASONS};
use second::report::{facts, summary};
use second::style::FILE_LIMIT;
use std::collections::BTreeSet;

const SOUND: &[u8] = include_bytes!("data/sound.sty");
const DAMAGED: &[u8] = include_bytes!("data/damaged.sty");

#[test]
fn samples() {
    let expected = include_str!("data/sound.json");
    assert_eq!(format!("{}\n", facts(b"sound.sty", SOUND)), expected);
    let expected = include_str!("data/damaged.json");
    assert_eq!(format!("{}\n", facts(b"damaged.sty", DAMAGED)), expected);
}

#[test]
fn lines_of_a_check() {
    let line = |name: &str, file| summary::line(name.as_bytes(), file).1.to_string();
    assert_eq!(
        line("sound.sty", Some(SOUND)),
        r#"{"file":"sound.sty","verdict":"sound","groups":5,"editions":[1],"refusal":null}"#
    );
    assert_eq!(
        line("damaged.sty", Some(DAMAGED)),
        r#"{"file":"damaged.sty","verdict":"damaged","groups":1,"editions":[2],"refusal":{"number":2,"place":56}}"#
    );
    assert_eq!(
        line("gone.sty", None),
        r#"{"file":"gone.sty","verdict":"not read","groups":0,"editions":[],"refusal":null}"#
    );
    assert_eq!(
        summary::totals(&["sound", "damaged", "not read"]).to_string(),
        r#"{"files":3,"sound":1,"damaged":1,"no CASM":0,"not a style file":0,"not read":1}"#
    );
    assert_eq!(summary::exit_status(&["sound", "damaged", "not read"]), 2);
    assert_eq!(summary::exit_status(&["sound", "no CASM"]), 1);
    assert_eq!(summary::exit_status(&["sound", "sound"]), 0);
    assert_eq!(
        line("x", Some(b"Dear library")),
        r#"{"file":"x","verdict":"not a style file","groups":0,"editions":[],"refusal":{"number":1,"place":0}}"#
    );
    assert_eq!(
        line("x", Some(&StyleDraft::new(b"", &[]).bytes())),
        r#"{"file":"x","verdict":"no CASM","groups":0,"editions":[],"refusal":{"number":5,"place":22}}"#
    );
}

#[test]
fn who_plays_of_the_sample() {
    let answer = who_plays(b"sound.sty", SOUND, b"Main A", b"F#m7").unwrap();
    let one = |channel: u8, voice: &str, destination: u8, name: &str| {
        format!(
            r#"{{"channel":{channel},"voice":"{voice}","destination":{destination},"destination_name":"{name}"}}"#
        )
    };
    let plays = [
        one(9, "Conga", 9, "Sub-Rhythm"),
        one(10, "Kit 2", 10, "Rhythm"),
        one(11, "Finger", 11, "Bass"),
        one(12, "Nylon", 12, "Chord 1"),
        one(13, "E.Piano", 13, "Chord 2"),
        one(14, "Strings", 14, "Pad"),
        one(16, "Horns", 16, "Phrase 2"),
    ];
    let expected = format!(
        r#"{{"file":"sound.sty","part":"Main A","root":"F#","type":"m7","channels":10,"plays":[{}]}}"#,
        plays.join(",")
    );
    assert_eq!(answer.to_string(), expected);
    for (part, chord) in [("main a", "C"), ("Main A", "H7"), ("Main A", "Cmin7")] {
        let asked = who_plays(b"x", SOUND, part.as_bytes(), chord.as_bytes());
        assert!(asked.is_err(), "{part} {chord}");
    }
    assert!(who_plays(b"x", DAMAGED, b"Main C", b"C").is_err());
}

#[test]
fn chords() {
    for (text, expected) in [
        ("C", Some((0, 0))),
        ("CMaj", Some((0, 0))),
        ("Db", Some((1, 0))),
        ("Bb7sus", Some((10, 20))),
        ("F#m7", Some((6, 10))),
        ("B#", Some((0, 0))),
        ("Cb", Some((11, 0))),
        ("Fbsus4", Some((4, 32))),
        ("E#1+2+5", Some((5, 33))),
        ("G7(#9)", Some((7, 27))),
        ("A7b5", Some((9, 21))),
        ("", None),
        ("H", None),
        ("c", None),
        ("Cmaj", None),
        ("C##", None),
        ("C m", None),
        ("C ", None),
    ] {
        assert_eq!(chord(text.as_bytes()), expected, "{text}");
    }
}

/// A file whose body begins at place 34.
fn around(body: &[u8]) -> Vec<u8> {
    StyleDraft::new(b"\0\xFF\x2F\0", &[(*b"CASM", body)]).bytes()
}

const BODY: usize = 34;

/// Number, reason, detail and place of a file's refusal, as they are printed.
fn refusal(file: &[u8]) -> String {
    let text = facts(b"x", file).to_string();
    let (_, rest) = text.split_once(r#""refusal":"#).unwrap();
    let (refusal, _) = rest.split_once(r#","dump":"#).unwrap();
    refusal.to_string()
}

/// Asserts the refusal of a file; a place in the body is given where it has one.
fn refused(file: &[u8], reason: Reason, detail: &str, place: usize, body: Option<usize>) {
    let quoted = |text: &str| format!("\"{}\"", text.replace('\\', "\\\\").replace('"', "\\\""));
    let detail = match detail {
        "" => "null".to_string(),
        _ => quoted(detail),
    };
    let body = body.map_or("null".to_string(), |place| place.to_string());
    let expected = format!(
        r#"{{"number":{},"reason":{},"detail":{detail},"place":{{"file":{place},"body":{body}}}"#,
        reason.number(),
        quoted(reason.sentence())
    );
    assert_eq!(refusal(file), expected);
}

fn body_refused(body: &[u8], reason: Reason, detail: &str, place: usize) {
    refused(&around(body), reason, detail, BODY + place, Some(place));
}

#[test]
fn each_sentence_stands_once_with_its_number() {
    for (place, (reason, number, sentence)) in REASONS.into_iter().enumerate() {
        assert_eq!(reason as usize, place);
        assert_eq!((reason.number(), reason.sentence()), (number, sentence));
        let same = REASONS.iter().filter(|row| row.2 == sentence);
        assert_eq!(same.count(), 1);
    }
}

#[test]
fn refusals_of_a_file() {
    let sections: [(Tag, &[u8]); 2] = [(*b"OTSc", b"ots"), (*b"CASM", b"")];
    let file = StyleDraft::new(b"", &sections);
    refused(b"M", Reason::NotAStyle, "", 0, None);
    let whole = file.bytes();
    let with_tail = |tail: &[u8]| [&whole[..], tail].concat();
    let end = whole.len();
    let cut = |detail, tail: &[u8]| refused(&with_tail(tail), Reason::CutShort, detail, end, None);
    cut("1 byte is left", b"F");
    cut("7 bytes are left", b"FNRc\0\0\0");
    let past = |detail, tail: &[u8]| {
        refused(&with_tail(tail), Reason::SectionPast, detail, end, None);
    };
    past(
        "the length says 1 byte, 0 bytes are left",
        b"FNRc\0\0\0\x01",
    );
    past(
        "the length says 4,294,967,295 bytes, 1 byte is left",
        b"FNRc\xFF\xFF\xFF\xFFx",
    );
    let again = with_tail(b"OTSc\0\0\0\0");
    refused(&again, Reason::SecondSection, "", end, None);
    let no_casm = StyleDraft::new(b"", &sections[..1]).bytes();
    refused(&no_casm, Reason::NoCasm, "", no_casm.len(), None);
    let large = around(&vec![0; 32_769]);
    refused(&large, Reason::BodyTooLarge, "", BODY - 8, None);
    let text = facts(b"x", &again).to_string();
    let listed = r#""sections":[{"tag":"MThd","place":0,"length":6},{"tag":"MTrk","place":14,"length":0},{"tag":"OTSc","place":22,"length":3},{"tag":"CASM","place":33,"length":0}],"casm":null,"entries":[]}"#;
    assert!(text.ends_with(listed), "{text}");
}

#[test]
fn refusals_of_group_headers() {
    let declared = |length: u32| [&CSEG[..], &length.to_be_bytes(), &m()[8..]].concat();
    let empty = [&CSEG[..], &[0; 4]].concat();
    let (past_next, past_body) = (Reason::GroupPastNext, Reason::GroupPastBody);
    body_refused(
        &[declared(16_746), n()].concat(),
        past_next,
        "the length says 16,746 bytes, 14 bytes are left",
        0,
    );
    body_refused(
        &[n(), declared(15)].concat(),
        past_body,
        "the length says 15 bytes, 14 bytes are left",
        22,
    );
    // Document 01, example 10: strictly 2 at 22, of the entry 2 at 0.
    body_refused(
        &[declared(15), n()].concat(),
        Reason::CutShort,
        "1 byte is left",
        22,
    );
    body_refused(
        &[m(), b"CSEG\0\0\0".to_vec()].concat(),
        Reason::CutShort,
        "7 bytes are left",
        22,
    );
    body_refused(
        &[m(), vec![0]].concat(),
        Reason::CutShort,
        "1 byte is left",
        22,
    );
    body_refused(
        &[&CSEG[..], &n()].concat(),
        Reason::CutShort,
        "4 bytes are left",
        0,
    );
    body_refused(&[m(), empty.clone()].concat(), Reason::EmptyGroup, "", 22);
    // A chunk of the group before by its length, a group with nothing in it by its own bytes.
    body_refused(&[declared(22), empty].concat(), Reason::EmptyGroup, "", 22);
    body_refused(
        &[declared(36), n()].concat(),
        Reason::TagNotHere,
        "the tag is \"CSEG\"",
        22,
    );
}

#[test]
fn loose_bytes_and_their_tags() {
    let hidden = Draft::new(b"CSEG", &[]).bytes();
    body_refused(
        &[&m()[..], b"XSEG\0\0\0\0", &n()].concat(),
        Reason::Loose,
        "",
        22,
    );
    body_refused(b"\0\0\0\0\0\0\0\0", Reason::Loose, "", 0);
    body_refused(
        &[&hidden[..], b"X\"\\\xFF\0\0\0\0"].concat(),
        Reason::TagNotHere,
        "the tag is \"X\"\\\\xff\"",
        20,
    );
    let text = facts(b"x", &around(&[m(), vec![0x41; 70], n()].concat())).to_string();
    let rows = text.matches(r#""bytes":"41414141414141414141414141414141","marked":null"#);
    assert_eq!(rows.count(), 1 + 4);
}

#[test]
fn refusals_across_groups() {
    let (first, second) = (
        Draft::new(b"A", &[plain(3)]).bytes(),
        Draft::new(b"B", &[ctb2::plain(3)]).bytes(),
    );
    let place = first.len();
    body_refused(&[first, second].concat(), Reason::OtherEdition, "", place);
    let twice = [m(), Draft::new(b"X,\"q\",Main A", &[]).bytes()].concat();
    body_refused(&twice, Reason::PartAgain, "the part is \"Main A\"", 22);
    let many: Vec<u8> = (0..33u8)
        .flat_map(|number| Draft::new(&[b'A' + number], &[]).bytes())
        .collect();
    body_refused(&many, Reason::TooManyGroups, "", 32 * 17);
}

type Change = fn(&mut Draft);

/// A changed group of an Sdec "A" and two records, its Cntts behind them.
fn changed(second: bool, change: Change) -> Vec<u8> {
    let mut group = match second {
        false => Draft::new(b"A", &[plain(3), plain(7)]),
        true => Draft::new(b"A", &[ctb2::plain(3), ctb2::plain(7)]),
    };
    change(&mut group);
    group.bytes()
}

#[test]
fn refusals_of_chunks() {
    let is = |change: Change, reason, detail: &str, place| {
        body_refused(&changed(false, change), reason, detail, place);
    };
    let (first, second, end) = (17, 17 + 35, 17 + 70);
    is(
        |g| g.tail = vec![0; 2],
        Reason::CutShort,
        "2 bytes are left",
        end,
    );
    is(
        |g| g.children[1].declared = Some(63),
        Reason::ChunkPast,
        "the length says 63 bytes, 62 bytes are left",
        first,
    );
    is(
        |g| g.children[2].tag = SDEC,
        Reason::TagNotHere,
        "the tag is \"Sdec\"",
        second,
    );
    is(
        |g| g.children[2].payload.truncate(1),
        Reason::OwnLength,
        "the length of this Ctab says 1 byte, it must be 27",
        second,
    );
    is(
        |g| g.children.push(Chunk::new(CNTT, &[0; 1_000])),
        Reason::OwnLength,
        "the length of this Cntt says 1,000 bytes, it must be 2",
        end,
    );
    body_refused(
        &changed(true, |g| g.children[1].payload.truncate(27)),
        Reason::OwnLength,
        "the length of this Ctb2 says 27 bytes, it must be 47",
        first,
    );
    is(
        |g| g.children[0].payload[0] = b',',
        Reason::PartNames,
        "",
        8,
    );
    is(
        |g| g.children[2].payload[0] = 3,
        Reason::SecondChunk,
        "",
        second,
    );
    let twice: Change = |g| g.children.extend([cntt(3, 4), cntt(3, 6)]);
    is(twice, Reason::SecondChunk, "", end + 10);
    is(|g| g.children.push(cntt(4, 4)), Reason::NoChannel, "", end);
    is(
        |g| g.children.push(record_chunk(&ctb2::plain(1))),
        Reason::TagNotHere,
        "the tag is \"Ctb2\"",
        end,
    );
}

#[test]
fn bytes_out_of_range() {
    let is = |second, change: Change, detail: &str, place| {
        body_refused(&changed(second, change), Reason::ByteOut, detail, place);
    };
    is(
        false,
        |g| g.children[1].payload[9] = 7,
        "destination channel is 07H (byte 9 of a Ctab), allowed is 08H-0FH",
        17 + 8 + 9,
    );
    is(
        false,
        |g| g.children[2].payload[26] = 0xFE,
        "end marker is FEH (byte 26 of a Ctab), allowed is 00H",
        17 + 35 + 8 + 26,
    );
    is(
        true,
        |g| g.children[1].payload[31] = 0x9C,
        "low limit of the middle notes is 9CH (byte 31 of a Ctb2), allowed is 00H-7FH",
        17 + 8 + 31,
    );
    is(
        true,
        |g| g.children[1].payload[35] = 0x0B,
        "table of the high notes is 0BH (byte 35 of a Ctb2), allowed is 00H-0AH or 80H-8AH",
        17 + 8 + 35,
    );
    is(
        true,
        |g| g.children[1].payload[22..24].copy_from_slice(&[2, 0x83]),
        "table of the low notes is 83H (byte 23 of a Ctb2), allowed is 00H-02H or 80H-82H",
        17 + 8 + 23,
    );
    is(
        false,
        |g| g.children.push(cntt(16, 4)),
        "source channel is 10H (byte 0 of a Cntt), allowed is 00H-0FH",
        17 + 70 + 8,
    );
    is(
        false,
        |g| g.children.push(cntt(3, 5)),
        "second table is 05H (byte 1 of a Cntt), allowed is 04H, 06H-0AH or 80H-8AH",
        17 + 70 + 9,
    );
}

#[test]
fn names_keep_to_printed_letters() {
    let mut record = plain(3);
    record[1..9].copy_from_slice(b"a\x1B\"\\\xFF\x7F  ");
    let file = around(&Draft::new(b"\"\\", &[record]).bytes());
    let text = facts(b"dir/a\x1B\xC3\xA9\"\\.sty", &file).to_string();
    assert!(text.starts_with(r#"{"file":"dir/a\\x1b\\xc3\\xa9\"\\.sty","size":"#));
    assert!(text.contains(r#""voice":"a\\x1b\"\\\\xff\\x7f","voice_bytes":"611b225cff7f2020""#));
    assert!(text.contains(r#""parts":["\"\\"]"#));
    for file in tool_files(5).take(400).filter(|file| file.len() < 9_000) {
        let text = facts(b"x", &file).to_string();
        assert!(text.bytes().all(|byte| (0x20..=0x7E).contains(&byte)));
    }
}

/// Every reason that a report of a file tells: its own, and those of its entries.
fn reasons(file: &[u8]) -> (Option<Reason>, BTreeSet<Reason>) {
    match read(file) {
        Err((_, told)) => (Some(told.reason), BTreeSet::new()),
        Ok(body) => {
            let of_entries = body.entries.iter().filter_map(|shown| match &shown.kind {
                Kind::Sound(_) => None,
                Kind::Damaged(_, told) | Kind::Loose(_, told) => Some(told.reason),
            });
            let of_entries = of_entries.collect();
            (body.refused.map(|(_, told)| told.reason), of_entries)
        }
    }
}

#[test]
fn each_sentence_among_the_first_files_of_a_seed() {
    const ACROSS: [Reason; 3] = [
        Reason::TooManyGroups,
        Reason::PartAgain,
        Reason::OtherEdition,
    ];
    for seed in [0, 1, 77, u64::MAX] {
        let (mut own, mut of_entries) = (BTreeSet::new(), BTreeSet::new());
        let mut sound = 0;
        let files: Vec<Vec<u8>> = tool_files(seed).take(300).collect();
        for file in files.iter().filter(|file| file.len() <= FILE_LIMIT) {
            let (reason, more) = reasons(file);
            sound += usize::from(reason.is_none());
            own.extend(reason);
            of_entries.extend(more);
        }
        assert!(sound >= 20, "{sound}");
        for (reason, number, _) in REASONS {
            assert!(own.contains(&reason), "seed {seed}: {reason:?}");
            let in_file = reason == Reason::SectionPast || (number < 6 && number != 2);
            let never = in_file || ACROSS.contains(&reason);
            assert_eq!(
                of_entries.contains(&reason),
                !never,
                "seed {seed}: {reason:?}"
            );
        }
        assert!(tool_files(seed).take(300).eq(files));
    }
}
