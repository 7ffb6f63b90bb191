//! What the generator must reach of edits inside style files: accepted ones of each kind, each
//! refusal of a finding and of a body, and the others alone and where they meet; both editions.

mod common;

use common::file_edits::{file_edits, FileEdit, Standing};
use common::reached::{assert_reached, holding};
use second::edition::Edition;
use second::gen::{generate, verb_of, Outcome, Script};
use second::ranges::first_out_of_range;
use second::style::FILE_LIMIT;
use std::collections::BTreeSet;

/// The edition of the record that stands there.
fn edition(standing: &Standing) -> Edition {
    match standing.bytes.len() {
        27 => Edition::First,
        _ => Edition::Second,
    }
}

/// What is refused behind the channel, each if it holds: 16, 21, 22 and the byte of 9.
fn behind_the_channel(line: &FileEdit, old: &Standing) -> (bool, bool, bool, Option<usize>) {
    (
        line.new[0] != line.channel,
        line.new.edition() != edition(old),
        old.bytes[10] == 1 && !line.over,
        first_out_of_range(line.new.edition(), line.new.bytes()),
    )
}

fn ok_kinds(line: &FileEdit) -> Vec<String> {
    let (number, old) = line.standing().unwrap();
    let group = line.group().unwrap();
    let of = &line.groups[group];
    let size = old.bytes.len();
    let end = old.place + size;
    let name = of.names.iter().position(|name| *name == line.part);
    let elsewhere = |at: usize| {
        at != group && {
            let mut records = line.groups[at].records.iter();
            records.any(|record| record.bytes[0] == line.channel)
        }
    };
    let mut kinds = holding([
        ("unchanged", line.file == line.after),
        ("locked, override", old.bytes[10] == 1),
        ("not locked", old.bytes[10] == 0 && !line.over),
        ("not locked, override", old.bytes[10] == 0 && line.over),
        ("locks", old.bytes[10] == 0 && line.new[10] == 1),
        ("opens", old.bytes[10] == 1 && line.new[10] == 0),
        ("the first record", number == 0 && of.records.len() > 1),
        ("a later record", number > 0),
        ("the first group", group == 0 && line.groups.len() > 1),
        ("a later group", group > 0),
        ("behind a group with the channel", (0..group).any(elsewhere)),
        ("the first name", name == Some(0) && of.names.len() > 1),
        ("a later name", name > Some(0)),
        ("the record ends the file", end == line.file.len()),
        ("behind 255", old.place > 255),
        ("behind 65535", old.place > 65_535),
        ("the longest file", line.file.len() == FILE_LIMIT),
        (
            "CASM in the track",
            line.file[22..line.start - 8]
                .windows(4)
                .any(|of| of == b"CASM"),
        ),
    ]);
    let unlike = (0..size).filter(|&index| line.after[old.place + index] != old.bytes[index]);
    kinds.extend(unlike.map(|index| format!("byte {index}")));
    kinds
}

fn refused_kinds(line: &FileEdit) -> Vec<String> {
    let numbers: Vec<usize> = line
        .told
        .split(' ')
        .skip(1)
        .map(|of| of.parse().unwrap())
        .collect();
    let (number, place) = (numbers[0], numbers[1]);
    if line.not_found.is_some() {
        return vec![format!("{number} of the finding")];
    }
    if let Some(unread) = line.unread {
        assert_eq!(place, line.start + unread.place);
        return vec![format!("{number} of the body")];
    }
    let Some(group) = line.group() else {
        return holding([
            ("15, no such part", true),
            ("15, no groups", line.groups.is_empty()),
            ("15, no name", line.part.is_empty()),
            ("15, a text", line.part.contains(&b',')),
            ("15, another source channel", line.new[0] != line.channel),
        ]);
    };
    let has = |at: usize| {
        let mut records = line.groups[at].records.iter();
        records.any(|record| record.bytes[0] == line.channel)
    };
    let Some((_, old)) = line.standing() else {
        return holding([
            ("15, no such channel", true),
            ("15, no records", line.groups[group].records.is_empty()),
            ("15, elsewhere", (0..line.groups.len()).any(has)),
            (
                "15, no such channel, another source channel",
                line.new[0] != line.channel,
            ),
            ("15, over 15", line.channel > 15),
        ]);
    };
    let (source, unlike, locked, out) = behind_the_channel(line, old);
    let mut kinds = holding([
        ("16", source && !unlike && !locked && out.is_none()),
        ("16 and 21", source && unlike),
        ("16 and 22", source && locked),
        ("16 and 9", source && out.is_some()),
        ("21", number == 21 && !locked && out.is_none()),
        ("21 and 22", number == 21 && locked),
        ("21 and 9", number == 21 && out.is_some()),
        ("22", number == 22 && out.is_none()),
        ("22 and 9", number == 22 && out.is_some()),
        (
            "22, the same record",
            number == 22 && line.new.bytes() == &old.bytes[..line.new.bytes().len()],
        ),
        ("9, locked and override", number == 9 && old.bytes[10] == 1),
    ]);
    if number == 9 {
        kinds.push(format!("9 at {place}"));
    }
    kinds
}

const OK: [&str; 18] = [
    "unchanged",
    "locked, override",
    "not locked",
    "not locked, override",
    "locks",
    "opens",
    "the first record",
    "a later record",
    "the first group",
    "a later group",
    "behind a group with the channel",
    "the first name",
    "a later name",
    "the record ends the file",
    "behind 255",
    "behind 65535",
    "the longest file",
    "CASM in the track",
];

const REFUSED: [&str; 19] = [
    "15, no such part",
    "15, no groups",
    "15, no name",
    "15, a text",
    "15, another source channel",
    "15, no such channel",
    "15, no records",
    "15, elsewhere",
    "15, no such channel, another source channel",
    "15, over 15",
    "16",
    "16 and 21",
    "16 and 22",
    "16 and 9",
    "21",
    "21 and 22",
    "21 and 9",
    "22",
    "22 and 9",
];

const LAST: [&str; 2] = ["22, the same record", "9, locked and override"];

/// The kinds of a line; where a record stands there, of its edition.
fn kinds(line: &FileEdit) -> Vec<String> {
    let own = match line.is_ok() {
        true => ok_kinds(line),
        false => refused_kinds(line),
    };
    let word = match line.is_ok() {
        true => "ok",
        false => "refused",
    };
    let edition = match line.standing() {
        None => "".to_string(),
        Some((_, old)) => format!("{:?} ", edition(old)),
    };
    own.iter()
        .map(|kind| format!("{edition}{word}: {kind}"))
        .collect()
}

fn wanted() -> BTreeSet<String> {
    let mut all = BTreeSet::new();
    for number in [1, 2, 3, 4, 5] {
        all.insert(format!("refused: {number} of the finding"));
    }
    for number in [2, 6, 7, 8, 9, 10, 11, 12, 13, 21] {
        all.insert(format!("refused: {number} of the body"));
    }
    all.extend(REFUSED[..10].iter().map(|kind| format!("refused: {kind}")));
    for edition in [Edition::First, Edition::Second] {
        let only_first = |kind: &&&str| edition == Edition::First || **kind != "the longest file";
        let of_ok = OK.iter().filter(only_first);
        all.extend(of_ok.map(|kind| format!("{edition:?} ok: {kind}")));
        let refused = REFUSED[10..].iter().chain(&LAST);
        all.extend(refused.map(|kind| format!("{edition:?} refused: {kind}")));
        for index in 1..edition.fields() {
            all.insert(format!("{edition:?} ok: byte {index}"));
            let any = |value: u8| {
                let mut bytes = vec![0; edition.fields()];
                bytes[index] = value;
                first_out_of_range(edition, &bytes) == Some(index)
            };
            if (0..=255).any(any) {
                all.insert(format!("{edition:?} refused: 9 at {index}"));
            }
        }
    }
    all
}

/// By the catalogue alone.
#[test]
fn the_catalogue_reaches_every_kind() {
    let catalogue = Script::new(131, &["editfile"]).before_mixture();
    assert!((500..4_000).contains(&catalogue), "{catalogue}");
    let lines = file_edits(131, catalogue);
    assert_reached(lines.iter().flat_map(kinds), wanted(), 1);
}

/// By a script of the length that is compared.
#[test]
fn a_script_reaches_every_kind() {
    let lines = file_edits(132, 20_000);
    assert_reached(lines.iter().flat_map(kinds), wanted(), 1);
}

/// The answers are of these numbers and no others, none of them rare.
#[test]
fn the_numbers_of_refusal() {
    let table = generate(133, 20_000, &["editfile"], std::io::sink()).unwrap();
    let number = |(_, outcome): &(&str, Outcome)| match outcome {
        Outcome::Refused(number) => Some(*number),
        _ => None,
    };
    let numbers: Vec<u8> = table.keys().filter_map(number).collect();
    let wanted = [1, 2, 3, 4, 5, 6, 7, 8, 9, 10, 11, 12, 13, 15, 16, 21, 22];
    assert_eq!(numbers, wanted);
    assert!(table.values().all(|&count| count > 15), "{table:?}");
    assert!(table[&("editfile", Outcome::Ok)] > 5_000, "{table:?}");
    assert!(
        (300..1_500).contains(&table[&("editfile", Outcome::Bad)]),
        "{table:?}"
    );
}

/// The verb is there where it is named, and leaves the others as they were.
#[test]
fn it_is_there_where_it_is_named() {
    let mut alone = Script::new(134, &["editfile"]).take(4_000);
    assert!(alone.all(|line| verb_of(&line) == "editfile"));
    let mut unnamed = Script::new(134, &[]).take(10_000);
    assert!(unnamed.all(|line| verb_of(&line) != "editfile"));
    let with: Vec<Vec<u8>> = Script::new(135, &["checked", "where", "editfile"])
        .take(1_500)
        .collect();
    let others = with.into_iter().filter(|line| verb_of(line) != "editfile");
    let alone = Script::new(135, &["checked", "where"]);
    assert!(others.take(400).eq(alone.take(400)));
}
