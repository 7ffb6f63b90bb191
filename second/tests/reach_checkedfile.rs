//! What the generator must reach of checks of style files (document 02, §13): files unlike inside
//! the record, in the body outside it, in each other part of the file, in length and in all of
//! these, and each refusal of a finding and of a body where it meets the next; both editions.

mod common;

use common::checks::{
    checks, kinds, of_editions, refusals_of_bodies, refusals_told, stands_in_body, stands_in_chunk,
    Check, Lent,
};
use common::chunks::{chunks, Chunk};
use common::reached::{assert_reached, holding};
use second::gen::{generate, verb_of, Outcome, Script};
use std::collections::BTreeSet;
use std::ops::Range;

/// MThd, MTrk and the sections of a sound file.
fn sections(file: &Lent) -> Vec<Chunk<'_>> {
    chunks(&file.bytes, 0, file.bytes.len())
}

/// In what of a sound file a place stands.
fn stands_in(file: &Lent, place: usize) -> String {
    let sections = sections(file);
    let within = |chunk: &&Chunk| chunk.place <= place && place < chunk.end();
    let Some(section) = sections.iter().find(within) else {
        return "behind the file".to_string();
    };
    let what = match section.place {
        0 => "MThd",
        14 => "the track",
        _ if section.end() == file.body.end && section.tag == b"CASM" => "the CASM",
        other if other < file.body.start => "a section in front",
        _ => "a section behind",
    };
    match what {
        "the CASM" if place >= file.body.start => {
            stands_in_body(file.body(), place - file.body.start)
        }
        _ => stands_in_chunk(section, what, place),
    }
}

/// Tags and payloads of a sound file's sections other than the CASM.
fn others(file: &Lent) -> Vec<(Vec<u8>, Vec<u8>)> {
    let sections = sections(file);
    let others = sections[2..].iter().filter(|of| of.tag != b"CASM");
    others
        .map(|of| (of.tag.to_vec(), of.payload.to_vec()))
        .collect()
}

/// The same in some fixed order.
fn in_order(file: &Lent) -> Vec<(Vec<u8>, Vec<u8>)> {
    let mut all = others(file);
    all.sort();
    all
}

/// Refusals of findings and of bodies that meet each other, 16 or 15.
fn meetings(check: &Check) -> Vec<String> {
    let (before, after) = (&check.before, &check.after);
    let [before_lost, after_lost] = [before, after].map(|file| file.not_found.is_some());
    let [before_bad, after_bad] = [before, after].map(|file| file.unread.is_some());
    let (group, _, channel) = check.has(before);
    let moved = before.body.start != after.body.start;
    let only_after = before.can_be_read() && after_bad;
    holding([
        ("both findings", before_lost && after_lost),
        ("before's finding, after's body", before_lost && after_bad),
        ("before's body, after's finding", before_bad && after_lost),
        ("both bodies", before_bad && after_bad),
        ("both bodies, CASMs apart", before_bad && after_bad && moved),
        ("after's body, CASMs apart", only_after && moved),
        ("after's body and 16", only_after && !group),
        ("after's body and 15", only_after && group && !channel),
        ("after's body, record there", only_after && channel),
        (
            "after's finding and 16",
            before.can_be_read() && after_lost && !group,
        ),
    ])
}

fn refused_kinds(check: &Check) -> Vec<String> {
    let mut kinds = meetings(check);
    kinds.push(check.refusal());
    kinds
}

/// Of a no, in what of the before file its place stands, and what only files have.
fn no_kinds(check: &Check, record: &Range<usize>, place: usize) -> Vec<String> {
    let (before, after) = (&check.before, &check.after);
    let equal = before.bytes.len() == after.bytes.len();
    let same = in_order(before) == in_order(after);
    let same_order = others(before) == others(after);
    let casm_moved = before.body.start != after.body.start;
    let lengths_apart = before.body.len() != after.body.len();
    let mut kinds = vec![stands_in(before, place)];
    kinds.extend(holding([
        ("just behind it, equally long", place == record.end && equal),
        ("bodies alike, files not", before.body() == after.body()),
        (
            "bodies of two lengths in files of one",
            equal && lengths_apart,
        ),
        ("sections exchanged", same && equal && !same_order),
        ("CASM exchanged", same && casm_moved && same_order),
    ]));
    kinds
}

fn answered_kinds(check: &Check, record: &Range<usize>) -> Vec<String> {
    match check.no() {
        Some(place) => no_kinds(check, record, place),
        None if record.end < check.before.bytes.len() => Vec::new(),
        None => vec![check.change(record).to_string() + ", the record ends the file"],
    }
}

/// Kinds of answers on records of either edition.
const ANSWERED: [&str; 32] = [
    "yes, unchanged, byte 10 is 0",
    "yes, unchanged, byte 10 is 1",
    "yes, edited, byte 10 is 0",
    "yes, edited, byte 10 is 1",
    "yes, edited, the record ends the file",
    "no, MThd",
    "no, the length of the track",
    "no, the track",
    "no, the tag of a section in front",
    "no, the length of a section in front",
    "no, a section in front",
    "no, the tag of the CASM",
    "no, the length of the CASM",
    "no, the length of a group",
    "no, a name",
    "no, a record",
    "no, the tag of a record",
    "no, the tag of a section behind",
    "no, the length of a section behind",
    "no, a section behind",
    "no, behind the file",
    "no, inside too",
    "no, just behind it",
    "no, just behind it, equally long",
    "no, its own tag",
    "no, the last byte",
    "no, no byte before",
    "no, no byte after",
    "no, bodies alike, files not",
    "no, bodies of two lengths in files of one",
    "no, sections exchanged",
    "no, CASM exchanged",
];

/// Kinds of refusals that meet.
const MEETINGS: [&str; 10] = [
    "both findings",
    "before's finding, after's body",
    "before's body, after's finding",
    "both bodies",
    "both bodies, CASMs apart",
    "after's body, CASMs apart",
    "after's body and 16",
    "after's body and 15",
    "after's body, record there",
    "after's finding and 16",
];

/// The refusals of a strict body but for 3, which a finding has before it, and those of a finding.
const BODY: [u8; 10] = [2, 6, 7, 8, 9, 10, 11, 12, 13, 21];
const FINDING: [u8; 5] = [1, 2, 3, 4, 5];

/// Every refusal with what it names.
fn refusals() -> BTreeSet<String> {
    let mut all = refusals_of_bodies(&BODY);
    for which in ["beforefile", "afterfile"] {
        all.extend(FINDING.map(|number| format!("{number} {which}")));
    }
    all
}

fn wanted() -> BTreeSet<String> {
    let mut kinds = of_editions(&ANSWERED);
    kinds.extend(refusals());
    kinds.extend(MEETINGS.map(str::to_string));
    kinds
}

/// By the catalogue alone.
#[test]
fn the_catalogue_reaches_every_kind() {
    let catalogue = Script::new(81, &["checkedfile"]).before_mixture();
    assert!((200..4_000).contains(&catalogue), "{catalogue}");
    let lines = checks("checkedfile", 81, catalogue);
    assert_reached(kinds(&lines, refused_kinds, answered_kinds), wanted(), 1);
}

/// By a script of the length that is compared; and no refusal but those that are allowed.
#[test]
fn a_script_reaches_every_kind() {
    let lines = checks("checkedfile", 82, 20_000);
    assert_reached(kinds(&lines, refused_kinds, answered_kinds), wanted(), 3);
    assert_eq!(refusals_told(&lines), refusals());
    let yes = lines.iter().filter(|check| check.told[1] == "yes").count();
    let no = lines.iter().filter(|check| check.told[1] == "no").count();
    assert!(yes > 1_500 && no > 4_000, "{yes} {no}");
}

/// The verb is there where it is named, alone or beside `checked`, and leaves the others as they
/// were.
#[test]
fn checks_of_files_are_there_where_they_are_named() {
    let alone = Script::new(85, &["checkedfile"]).take(4_000);
    assert!(alone
        .map(|line| verb_of(&line))
        .all(|verb| verb == "checkedfile"));
    let unnamed = Script::new(85, &[]).take(4_000);
    assert!(unnamed
        .map(|line| verb_of(&line))
        .all(|verb| verb != "checkedfile"));
    let both = generate(86, 6_000, &["checked", "checkedfile"], std::io::sink()).unwrap();
    for verb in ["checked", "checkedfile"] {
        let lines = both.iter().filter(|((of, _), _)| *of == verb);
        assert!(lines.map(|(_, count)| count).sum::<u64>() > 2_000);
        assert!((50..600).contains(&both[&(verb, Outcome::Bad)]), "{both:?}");
    }
    let with: Vec<Vec<u8>> = Script::new(87, &["checked", "checkedfile"])
        .take(800)
        .collect();
    let bodies = with.into_iter().filter(|line| verb_of(line) == "checked");
    let alone = Script::new(87, &["checked"]);
    assert!(bodies.take(300).eq(alone.take(300)));
}
