//! What the generator must reach of checks (document 02, §13): bodies unlike inside the record,
//! outside it, in length and in all of these, each refusal where it meets the next, both editions.

mod common;

use common::checks::{
    checks, kinds, of_editions, refusals_of_bodies, refusals_told, stands_in_body, Check,
};
use common::chunks::{edition, groups};
use common::reached::{assert_reached, holding};
use second::gen::{generate, verb_of, Outcome, Script};
use std::collections::BTreeSet;
use std::ops::Range;

/// The edition of a readable body's records, 0 where there are none.
fn of_body(body: &[u8]) -> usize {
    let editions = groups(body).into_iter().map(|(_, all)| edition(&all));
    editions.max().unwrap_or(0)
}

/// Refusals of the bodies that meet each other, 16 or 15.
fn meetings(check: &Check) -> Vec<String> {
    let (of_before, of_after) = (check.before.unread, check.after.unread);
    let (group, _, channel) = check.has(&check.before);
    let [before_bad, after_bad] = [of_before, of_after].map(|unread| unread.is_some());
    holding([
        ("both refused", before_bad && after_bad),
        ("both refused alike", before_bad && of_before == of_after),
        ("after refused, 16", !before_bad && after_bad && !group),
        ("after refused, 15", after_bad && group && !channel),
        ("after refused, record there", after_bad && channel),
    ])
}

/// What holds of two bodies that can be read, where 16 or 15 is told.
fn not_there(check: &Check) -> Vec<String> {
    let (before, after) = (&check.before, &check.after);
    if !before.can_be_read() || !after.can_be_read() {
        return Vec::new();
    }
    let (group, count, _) = check.has(before);
    let (its_group, _, its_channel) = check.has(after);
    holding([
        ("after has it", its_channel || (its_group && !group)),
        ("no records", group && count == 0),
        ("same bodies", before.bytes == after.bytes),
        ("unlike bodies", before.bytes != after.bytes),
        ("empty before", before.bytes.is_empty()),
    ])
}

fn refused_kinds(check: &Check) -> Vec<String> {
    let kind = check.refusal();
    let mut kinds = meetings(check);
    let not_there = not_there(check).into_iter();
    kinds.extend(not_there.map(|what| format!("{kind}, {what}")));
    kinds.push(kind);
    kinds
}

/// Of a no, how its place stands in the before body, and what only bodies have.
fn answered_kinds(check: &Check, record: &Range<usize>) -> Vec<String> {
    let Some(place) = check.no() else {
        return Vec::new();
    };
    let (before, after) = (&check.before.bytes, &check.after.bytes);
    let common = before.len().min(after.len());
    let short = before.len() != after.len();
    let mut kinds = vec![stands_in_body(before, place)];
    kinds.extend(holding([
        ("the name before it", place + 9 == record.start),
        ("one byte further", place == record.end + 1),
        ("a byte and the length", place < common && short),
        ("before the record", place < record.start),
        ("behind the record", place >= record.end),
        ("another edition", of_body(before) + of_body(after) == 3),
        ("empty after", after.is_empty()),
    ]));
    kinds
}

/// Kinds of answers on records of either edition.
const ANSWERED: [&str; 22] = [
    "yes, unchanged",
    "yes, edited",
    "yes, unchanged, byte 10 is 1",
    "yes, edited, byte 10 is 1",
    "yes, edited, byte 10 is 0",
    "no, a name",
    "no, a record",
    "no, the length of a group",
    "no, the name before it",
    "no, behind the body",
    "no, just behind it",
    "no, the last byte",
    "no, no byte before",
    "no, no byte after",
    "no, a byte and the length",
    "no, before the record",
    "no, behind the record",
    "no, inside too",
    "no, another edition",
    "no, empty after",
    "no, its own tag",
    "no, the tag of a record",
];

/// Kinds of refusals.
const REFUSED: [&str; 16] = [
    "both refused",
    "both refused alike",
    "after refused, 16",
    "after refused, 15",
    "after refused, record there",
    "16 before, after has it",
    "16 before, same bodies",
    "16 before, unlike bodies",
    "16 before, empty before",
    "15 before, after has it",
    "15 before, no records",
    "15 before, same bodies",
    "15 before, unlike bodies",
    "3 before",
    "3 after",
    "21 after",
];

fn wanted() -> BTreeSet<String> {
    let mut kinds = of_editions(&ANSWERED);
    kinds.extend(REFUSED.map(str::to_string));
    kinds.insert("1: no, one byte further".to_string());
    kinds
}

/// By the catalogue alone, and by a script of the length that is compared.
#[test]
fn checks_reach_every_kind() {
    let catalogue = Script::new(71, &["checked"]).before_mixture();
    for (seed, count, least) in [(71, catalogue, 1), (72, 20_000, 2)] {
        let lines = checks("checked", seed, count);
        assert_reached(
            kinds(&lines, refused_kinds, answered_kinds),
            wanted(),
            least,
        );
    }
}

/// Every refusal of a strict body, of either body, and 16 and 15; and no other answer.
#[test]
fn checks_reach_every_refusal_of_either_body() {
    const BODY: [u8; 11] = [2, 3, 6, 7, 8, 9, 10, 11, 12, 13, 21];
    for seed in [73, 74] {
        let lines = checks("checked", seed, 20_000);
        assert_eq!(refusals_told(&lines), refusals_of_bodies(&BODY));
        let table = generate(seed, 20_000, &["checked"], std::io::sink()).unwrap();
        assert!(table[&("checked", Outcome::Ok)] > 8_000, "{table:?}");
        assert!((200..1_500).contains(&table[&("checked", Outcome::Bad)]));
    }
}

/// The verb is there where it is named, soon by the mixture, and leaves the others as they were.
#[test]
fn checks_are_there_where_they_are_named() {
    let script = Script::new(75, &["checked"]);
    let catalogue = script.before_mixture();
    assert!((200..2_500).contains(&catalogue), "{catalogue}");
    assert!(script.take(3_000).all(|line| verb_of(&line) == "checked"));
    assert!(Script::new(75, &[])
        .take(20_000)
        .all(|line| verb_of(&line) != "checked"));
    let with: Vec<Vec<u8>> = Script::new(76, &["where", "checked"]).take(800).collect();
    let others = with.into_iter().filter(|line| verb_of(line) == "where");
    let alone = Script::new(76, &["where"]);
    assert!(others.take(300).eq(alone.take(300)));
}
