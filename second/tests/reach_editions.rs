//! What the generator must reach of the second edition (document 02, §4): which set a note uses, 21
//! where it meets each other refusal, every index on the screen, and enough of the first edition.

mod common;

use common::answered::answered;
use common::note_kinds::set_of;
use second::body::read_body;
use second::calls::VERBS;
use second::edition::Edition;
use second::gen::Script;
use second::record::{first_bad_byte, Record};
use second::script::{bytes, number, record};
use std::collections::{BTreeMap, BTreeSet};

/// `ok`, or the number of a refusal.
fn outcome(words: &[String]) -> &str {
    match words[0].as_str() {
        "ok" => "ok",
        _ => &words[1],
    }
}

fn assert_reached(reached: &BTreeSet<String>, wanted: &[&str]) {
    let missing: Vec<&&str> = wanted
        .iter()
        .filter(|kind| !reached.contains(**kind))
        .collect();
    assert!(missing.is_empty(), "{missing:?} of {reached:?}");
}

/// Where a note stands to the bounds of the middle notes.
fn note_kinds(bytes: &[u8; 47], note: u8) -> Vec<String> {
    let (lowest, highest) = (bytes[20], bytes[21]);
    let crossed = if lowest > highest { "crossed, " } else { "" };
    let beside = |bound: u8| match i16::from(note) - i16::from(bound) {
        -1 => "below",
        0 => "at",
        1 => "above",
        _ => "away from",
    };
    vec![
        format!("{crossed}{} byte 20", beside(lowest)),
        format!("{crossed}{} byte 21", beside(highest)),
    ]
}

/// What a set that the note uses, and one that it does not, has that is told by the answer.
fn set_kinds(given: &Record, note: u8, words: &[String]) -> Vec<String> {
    let own = set_of(given, i32::from(note));
    let mut kinds = Vec::new();
    for (set, name) in [(22, "low"), (28, "middle"), (34, "high")] {
        let whose = if set == own { "used" } else { "unused" };
        let bypass = given[set + 1] & 0x7F == 0;
        let what = match (first_bad_byte(given), given[set]) {
            (Some(index), _) if (set..set + 6).contains(&index) => "a bad byte".to_string(),
            (Some(_), _) => continue,
            (None, rule) if bypass => format!("rule {rule}, bypass"),
            (None, rule) => format!("rule {rule}"),
        };
        kinds.push(format!("{whose} {name} set, {what}: {}", outcome(words)));
    }
    kinds
}

#[test]
fn place_reaches_every_set() {
    let mut reached = BTreeSet::new();
    let catalogue = Script::new(51, &["place"]).before_mixture();
    for (parts, words) in answered("place", 51, catalogue) {
        let note = number(&parts[3]).unwrap() as u8;
        let given = record(&parts[1]).unwrap();
        let Record::Second(second) = given else {
            continue;
        };
        if outcome(&words) != "16" {
            reached.extend(note_kinds(&second, note));
            reached.extend(set_kinds(&given, note, &words));
        }
    }
    let mut wanted = Vec::new();
    for beside in ["below", "at", "above"] {
        for byte in [20, 21] {
            wanted.push(format!("{beside} byte {byte}"));
            wanted.push(format!("crossed, {beside} byte {byte}"));
        }
    }
    for set in ["low", "middle", "high"] {
        for (kind, told) in [
            ("rule 0", "ok"),
            ("rule 0, bypass", "ok"),
            ("rule 1", "17"),
            ("rule 1, bypass", "ok"),
            ("rule 2", "17"),
            ("rule 2, bypass", "17"),
            ("a bad byte", "9"),
        ] {
            wanted.push(format!("used {set} set, {kind}: {told}"));
        }
        for (kind, told) in [("rule 1", "ok"), ("rule 2", "ok"), ("a bad byte", "9")] {
            wanted.push(format!("unused {set} set, {kind}: {told}"));
        }
    }
    let wanted: Vec<&str> = wanted.iter().map(String::as_str).collect();
    assert_reached(&reached, &wanted);
}

/// Which meeting of 21 in writing a line is: of record 0's edition, the number answered and what
/// else is wrong.
fn writing_kinds(parts: &[Vec<u8>], words: &[String]) -> Vec<String> {
    let table: Vec<Record> = parts[4..].iter().map(|rec| record(rec).unwrap()).collect();
    let count = number(&parts[2]).unwrap() as usize;
    let told = outcome(words);
    let (judged, beyond) = table.split_at(count.min(table.len()));
    let Some(first) = judged.first().map(Record::edition) else {
        return Vec::new();
    };
    let unlike = |record: &Record| record.edition() != first;
    let mut kinds = Vec::new();
    if !judged.iter().any(unlike) {
        if beyond.iter().any(unlike) {
            kinds.push(format!("{first:?}: {told}, unlike past the count"));
        }
        return kinds;
    }
    kinds.push(format!("{first:?}: {told}"));
    let row = judged.iter().position(unlike).unwrap();
    let bad = |record: &Record| first_bad_byte(record).is_some();
    let again = |row: usize| judged[..row].iter().any(|r| r[0] == judged[row][0]);
    if told == "21" {
        let own = first.size() * row;
        assert_eq!(words[2], own.to_string());
        let text = bytes(&parts[1]).unwrap().len();
        let room = number(&parts[3]).unwrap() as usize;
        for (what, is) in [
            ("its own 9", bad(&judged[row])),
            ("its own 10", again(row)),
            ("a later 9", judged[row + 1..].iter().any(bad)),
            ("too little room", room < 16 + text),
        ] {
            if is {
                kinds.push(format!("{first:?}: 21 and {what}"));
            }
        }
    }
    kinds
}

#[test]
fn write_reaches_every_meeting_of_21() {
    let mut reached = BTreeSet::new();
    let catalogue = Script::new(52, &["write"]).before_mixture();
    for (parts, words) in answered("write", 52, catalogue) {
        reached.extend(writing_kinds(&parts, &words));
    }
    let mut wanted = Vec::new();
    for first in ["First", "Second"] {
        for kind in [
            "8",
            "9",
            "10",
            "16",
            "21",
            "21 and its own 9",
            "21 and its own 10",
            "21 and a later 9",
            "21 and too little room",
            "ok, unlike past the count",
            "14, unlike past the count",
        ] {
            wanted.push(format!("{first}: {kind}"));
        }
    }
    wanted.push("First: 18, unlike past the count".to_string());
    let wanted: Vec<&str> = wanted.iter().map(String::as_str).collect();
    assert_reached(&reached, &wanted);
}

/// Which meeting of 21 in an edit a line is: of the body's edition.
fn edit_kind(parts: &[Vec<u8>], words: &[String]) -> Option<String> {
    let body = bytes(&parts[1]).unwrap();
    let groups = read_body(&body).ok()?;
    let own = groups.iter().find_map(|group| group.edition())?;
    let new = record(&parts[4]).unwrap();
    let channel = number(&parts[3]).unwrap() as u8;
    let unlike = new.edition() != own;
    let mut kind = format!("{own:?}: {}", outcome(words));
    for (what, is) in [
        ("unlike", unlike),
        ("another channel", new[0] != channel),
        ("a bad byte", first_bad_byte(&new).is_some()),
    ] {
        if is {
            kind = format!("{kind}, {what}");
        }
    }
    Some(kind)
}

#[test]
fn edit_reaches_every_meeting_of_21() {
    let catalogue = Script::new(53, &["edit"]).before_mixture();
    let reached: BTreeSet<String> = answered("edit", 53, catalogue)
        .iter()
        .filter_map(|(parts, words)| edit_kind(parts, words))
        .collect();
    let mut wanted = Vec::new();
    for own in ["First", "Second"] {
        for kind in [
            "ok",
            "9, a bad byte",
            "16, another channel",
            "16, another channel, a bad byte",
            "16, unlike, another channel",
            "16, unlike, another channel, a bad byte",
            "16, unlike",
            "15, unlike",
            "21, unlike",
            "21, unlike, a bad byte",
        ] {
            wanted.push(format!("{own}: {kind}"));
        }
    }
    let wanted: Vec<&str> = wanted.iter().map(String::as_str).collect();
    assert_reached(&reached, &wanted);
}

/// Every index of both editions is set, and refused where it has a range; each table under rules 0
/// to 2 and over 2; rule 2 over a table that it forbids.
#[test]
fn screen_reaches_every_index() {
    let mut reached = BTreeSet::new();
    let catalogue = Script::new(54, &["screen"]).before_mixture();
    for (parts, words) in answered("screen", 54, catalogue) {
        let given = record(&parts[1]).unwrap();
        let index = number(&parts[2]).unwrap() as usize;
        let value = number(&parts[3]).unwrap() as u8;
        let told = outcome(&words);
        let edition = given.edition();
        reached.insert(format!("{edition:?} {}: {told}", index.min(48)));
        if edition == Edition::Second && [23, 29, 35].contains(&index) {
            let rule = given[index - 1].min(3);
            let only = value & 0x7F <= 0x0A;
            reached.insert(format!("{index} rule {rule}: {told} {only}"));
        }
        if edition == Edition::Second && [22, 28, 34].contains(&index) && value == 2 {
            let forbidden = given[index + 1] & 0x7F > 2;
            reached.insert(format!("{index} set to 2: {told} {forbidden}"));
        }
    }
    let mut wanted = Vec::new();
    for index in 0..48 {
        let first = if index < 26 { "ok" } else { "16" };
        let second = if index < 47 { "ok" } else { "16" };
        wanted.push(format!("Second {index}: {second}"));
        if index < 47 {
            wanted.push(format!("First {index}: {first}"));
        }
        if index < 40 && !(1..9).contains(&index) && ![12, 14, 15, 16, 17].contains(&index) {
            wanted.push(format!("Second {index}: 9"));
        }
    }
    for table in [23, 29, 35] {
        for rule in 0..4 {
            wanted.push(format!("{table} rule {rule}: ok true"));
            wanted.push(format!("{table} rule {rule}: 9 false"));
        }
        wanted.push(format!("{table} rule 2: 9 true"));
        wanted.push(format!("{} set to 2: ok true", table - 1));
    }
    let wanted: Vec<&str> = wanted.iter().map(String::as_str).collect();
    assert_reached(&reached, &wanted);
}

/// Bodies with 21 behind and before groups without records, and accepted ones with these around
/// both editions.
#[test]
fn bodies_reach_empty_groups_everywhere() {
    let mut reached = BTreeSet::new();
    for (parts, words) in answered("where", 55, 1_200) {
        let body = bytes(&parts[1]).unwrap();
        let Ok(groups) = read_body(&body) else {
            continue;
        };
        let editions: Vec<_> = groups.iter().map(|group| group.edition()).collect();
        let Some(own) = editions.iter().find_map(|edition| *edition) else {
            continue;
        };
        let first = editions.iter().position(Option::is_some).unwrap();
        let last = editions.iter().rposition(Option::is_some).unwrap();
        let empty = |range: &[Option<Edition>]| range.contains(&None);
        for (what, is) in [
            ("before", empty(&editions[..first])),
            ("between", empty(&editions[first..last])),
            ("behind", empty(&editions[last..])),
        ] {
            if is {
                reached.insert(format!("{own:?} {what}: {}", outcome(&words)));
            }
        }
    }
    assert_reached(
        &reached,
        &[
            "First before: ok",
            "First between: ok",
            "First behind: ok",
            "Second before: ok",
            "Second between: ok",
            "Second behind: ok",
        ],
    );
}

/// Which edition a line speaks of: that of its first record, or of the first Ctab or Ctb2 tag of
/// its bytes; none where it has neither.
fn edition_of(parts: &[Vec<u8>]) -> Option<Edition> {
    let of_records = parts.iter().find_map(|part| record(part));
    if let Some(record) = of_records {
        return Some(record.edition());
    }
    let held = bytes(parts.get(1)?)?;
    held.windows(4).find_map(|four| match four {
        b"Ctab" => Some(Edition::First),
        b"Ctb2" => Some(Edition::Second),
        _ => None,
    })
}

/// Of the lines that speak of records at least half are of the first edition and a quarter of the
/// second, for each verb.
#[test]
fn both_editions_have_their_share() {
    for verb in VERBS.into_iter().filter(|&verb| verb != "find") {
        let mut counts: BTreeMap<Edition, usize> = BTreeMap::new();
        for (parts, _) in answered(verb, 56, 6_000) {
            if let Some(edition) = edition_of(&parts) {
                *counts.entry(edition).or_default() += 1;
            }
        }
        let (first, second) = (counts[&Edition::First], counts[&Edition::Second]);
        let all = first + second;
        assert!(2 * first >= all && 4 * second > all, "{verb} {counts:?}");
    }
}
