//! What the generator must reach of `section`, `entry` and `site` in a script of all three of the
//! length that is compared: each answer, and where it comes from, in both editions.

mod common;

use common::asked::{asked, Asked, ASKING};
use common::reached::{assert_reached, holding};
use second::body::read_body;
use second::gen::{generate, verb_of, Outcome, Script};
use second::site::beginnings;
use second::style::{find, BODY_LIMIT, FILE_LIMIT};
use std::collections::BTreeSet;

/// Whether the bytes have a tag at a place.
fn has(bytes: &[u8], place: usize, tag: &[u8]) -> bool {
    bytes.get(place..).is_some_and(|rest| rest.starts_with(tag))
}

/// How a section stands to its file, or why it is none.
fn section_kinds(line: &Asked) -> Vec<String> {
    let (file, at, end) = (&line.bytes, line.place, line.bytes.len());
    let length = line.length_at(at + 4);
    if line.is_ok() {
        let true_one = find(file).is_ok() && beginnings(file).any(|tag| tag == at);
        return holding([
            ("MThd", at == 0 && has(file, 0, b"MThd")),
            ("MTrk", at == 14 && has(file, 14, b"MTrk")),
            ("CASM", true_one && has(file, at, b"CASM")),
            (
                "another true one",
                true_one && at > 14 && !has(file, at, b"CASM"),
            ),
            ("between true ones", find(file).is_ok() && !true_one),
            ("of a file not found", find(file).is_err()),
            ("empty", length == 0),
            ("empty at the end", length == 0 && at + 8 == end),
            ("up to the end", length > 0 && at + 8 + length == end),
            ("one byte more", length > 0 && at + 9 + length == end),
            ("over 255", length > 255),
            ("over 65535", length > 65_535),
            ("a file over its limit", end > FILE_LIMIT),
        ]);
    }
    let left = end.saturating_sub(at);
    let mut kinds = holding([
        ("at the end", at == end),
        ("one past it", at == end + 1),
        ("far past it", at > 0x7FFF_FFFF),
        ("no bytes", end == 0),
        (
            "length past by one",
            left >= 8 && at + 8 + length == end + 1,
        ),
        ("length far past", left >= 8 && length > 0xFFFF),
        ("sum past 2^32", left >= 8 && at + 8 + length > 0xFFFF_FFFF),
        ("MThd", at == 0 && left >= 8 && has(file, 0, b"MThd")),
        ("MTrk", at == 14 && left >= 8 && has(file, 14, b"MTrk")),
        ("a file over its limit", end > FILE_LIMIT),
    ]);
    if (1..8).contains(&left) {
        kinds.push(format!("{left} left"));
    }
    kinds
}

const SECTION_OK: [&str; 13] = [
    "MThd",
    "MTrk",
    "CASM",
    "another true one",
    "between true ones",
    "of a file not found",
    "empty",
    "empty at the end",
    "up to the end",
    "one byte more",
    "over 255",
    "over 65535",
    "a file over its limit",
];

const SECTION_2: [&str; 17] = [
    "at the end",
    "one past it",
    "far past it",
    "no bytes",
    "length past by one",
    "length far past",
    "sum past 2^32",
    "MThd",
    "MTrk",
    "a file over its limit",
    "1 left",
    "2 left",
    "3 left",
    "4 left",
    "5 left",
    "6 left",
    "7 left",
];

/// The number of a refusal and the tag that stands at its place, or a group's; what follows a group.
fn entry_kinds(line: &Asked) -> Vec<String> {
    let bytes = &line.bytes;
    let numbers = line.numbers();
    if line.is_ok() {
        let strict = read_body(bytes).err().map_or(0, |refusal| refusal.number);
        let tag = |tag: &[u8]| bytes[..numbers[0]].windows(4).any(|four| four == tag);
        let behind = &bytes[numbers[0]..];
        let cut = bytes[4..].windows(4).any(|four| four == b"CSEG");
        return holding([
            ("alone", behind.is_empty()),
            ("a byte behind", behind.len() == 1),
            ("a group behind", strict == 0 && !behind.is_empty()),
            ("loose behind", strict == 2 || strict == 6),
            ("12 in a body", strict == 12),
            ("13 in a body", strict == 13),
            ("21 in a body", strict == 21),
            ("Ctabs", tag(b"Ctab")),
            ("Cntts", tag(b"Cntt")),
            ("Ctb2s", tag(b"Ctb2")),
            ("no records", !tag(b"Ctab") && !tag(b"Ctb2")),
            ("CSEG inside", behind.is_empty() && cut),
            ("at the limit", bytes.len() == BODY_LIMIT),
        ]);
    }
    let (number, place) = (numbers[0], numbers[1]);
    let is_group = has(bytes, 0, b"CSEG");
    let mut kinds = match (number, is_group) {
        (3, true) => vec!["3 of a group".to_string()],
        (3, false) => vec!["3 of loose bytes".to_string()],
        (_, false) => match bytes.len() {
            0 => vec!["6 of no bytes".to_string()],
            1..=3 => vec!["6 of fewer than four".to_string()],
            _ => vec!["6 of loose bytes".to_string()],
        },
        (9, true) => {
            let chunk = beginnings(bytes).take_while(|&chunk| chunk <= place);
            let chunk = chunk.last().unwrap();
            let tag = String::from_utf8_lossy(&bytes[chunk..chunk + 4]);
            vec![format!("9 in {tag}")]
        }
        (number, true) if place == 0 => vec![format!("{number} of the group")],
        (number, true) => {
            let tag = &bytes[place..bytes.len().min(place + 4)];
            let tag = [b"Sdec", b"Ctab", b"Cntt", b"Ctb2"]
                .into_iter()
                .find(|own| &own[..] == tag);
            let tag = tag.map_or("other".into(), |tag| String::from_utf8_lossy(tag));
            vec![format!("{number} at {tag}")]
        }
    };
    let left = bytes.len() < 8;
    kinds.extend(holding([
        ("6 at the limit", number == 6 && bytes.len() == BODY_LIMIT),
        ("2, header cut", number == 2 && is_group && left),
        ("2, length past", number == 2 && place == 0 && !left),
    ]));
    kinds
}

const ENTRY_OK: [&str; 13] = [
    "alone",
    "a byte behind",
    "a group behind",
    "loose behind",
    "12 in a body",
    "13 in a body",
    "21 in a body",
    "Ctabs",
    "Cntts",
    "Ctb2s",
    "no records",
    "CSEG inside",
    "at the limit",
];

const ENTRY_REFUSED: [&str; 30] = [
    "3 of a group",
    "3 of loose bytes",
    "6 of no bytes",
    "6 of fewer than four",
    "6 of loose bytes",
    "6 at the limit",
    "2 of the group",
    "2, header cut",
    "2, length past",
    "6 of the group",
    "2 at Sdec",
    "2 at Ctab",
    "2 at Ctb2",
    "2 at Cntt",
    "2 at other",
    "6 at other",
    "6 at Ctab",
    "6 at Ctb2",
    "6 at Cntt",
    "6 at Sdec",
    "7 at Ctab",
    "7 at Ctb2",
    "7 at Cntt",
    "8 at Sdec",
    "9 in Ctab",
    "9 in Ctb2",
    "9 in Cntt",
    "10 at Ctab",
    "10 at Ctb2",
    "10 at Cntt",
];

/// Where the place stands in its chunk, by the chunk's tag, and how the bytes are before it.
fn site_kinds(line: &Asked) -> Vec<String> {
    let (bytes, place, end) = (&line.bytes, line.place, line.bytes.len());
    if !line.is_ok() {
        let kinds = holding([
            ("at the end", place == end),
            ("one past it", place == end + 1),
            ("far past it", place > 0x7FFF_FFFF),
            ("no bytes", end == 0),
            ("a place that is there", place < end),
            ("a place that is not there", place >= end),
        ]);
        let number = line.numbers()[0];
        return kinds.iter().map(|of| format!("{number}, {of}")).collect();
    }
    let [group, child, chunk]: [usize; 3] = line.numbers().try_into().unwrap();
    let starts: Vec<usize> = beginnings(bytes).collect();
    let next = starts.iter().copied().find(|&start| start > place);
    let tags = ["CSEG", "Sdec", "Ctab", "Ctb2", "Cntt"];
    let tag = tags
        .into_iter()
        .find(|tag| has(bytes, chunk, tag.as_bytes()));
    let tag = tag.unwrap_or("other");
    let sound = if read_body(bytes).is_ok() {
        "sound"
    } else {
        "damaged"
    };
    let length = line.length_at(chunk + 4);
    let jumps = tag != "CSEG" && end - chunk >= 8;
    let headers = starts.iter().filter(|&&start| has(bytes, start, b"CSEG"));
    let headers: Vec<usize> = headers.copied().filter(|&start| start <= place).collect();
    let lies = |&start: &usize| {
        let behind = start + 8 + line.length_at(start + 4);
        behind != end && starts.contains(&start) && !has(bytes, behind, b"CSEG")
    };
    let mut kinds = holding([
        ("header cut", end - chunk < 8),
        ("header cut, last byte", end - chunk < 8 && place + 1 == end),
        ("CSEG cut", tag == "CSEG" && end - chunk < 8),
        (
            "cut, first byte",
            jumps && chunk + 8 + length > end && place == chunk,
        ),
        (
            "cut, last byte",
            jumps && chunk + 8 + length > end && place + 1 == end,
        ),
        ("past by one", jumps && chunk + 8 + length == end + 1),
        ("up to the end", jumps && chunk + 8 + length == end),
        ("sum past 2^32", jumps && chunk + 8 + length > 0xFFFF_FFFF),
        (
            "jump over a group",
            jumps && length > 8 && has_inside(bytes, chunk + 8, place),
        ),
        ("length over 255", jumps && length > 255 && next.is_some()),
        (
            "behind a length over 255",
            behind_a_great_length(line, &starts),
        ),
        ("no header before", headers.is_empty()),
        (
            "no header before, not the first",
            headers.is_empty() && child > 0,
        ),
        (
            "loose before the first header",
            headers.first().is_some_and(|&first| first > 0),
        ),
        (
            "header behind header",
            tag == "CSEG" && chunk >= 8 && headers.contains(&(chunk - 8)),
        ),
        ("behind a group length that lies", headers.iter().any(lies)),
        ("over 31 groups", group > 31),
        ("over 255 groups", group > 255),
        ("over 255 children", child > 255),
        ("at the limit", end == BODY_LIMIT),
    ]);
    if place == chunk {
        kinds.push(format!("{sound}, first byte of {tag}"));
    }
    if place + 1 == next.unwrap_or(end) {
        kinds.push(format!("{sound}, last byte of {tag}"));
    }
    if (4..8).contains(&(place - chunk)) {
        kinds.push(format!("{sound}, length of {tag}"));
    }
    kinds
}

/// Whether CSEG stands somewhere from a place up to another.
fn has_inside(bytes: &[u8], from: usize, to: usize) -> bool {
    (from..to).any(|place| has(bytes, place, b"CSEG"))
}

/// Whether some chunk before the one told had a length over 255, and was walked over.
fn behind_a_great_length(line: &Asked, starts: &[usize]) -> bool {
    let mut before = starts.windows(2).take_while(|two| two[1] <= line.place);
    before.any(|two| two[1] - two[0] > 263)
}

const SITE_OK: [&str; 20] = [
    "header cut",
    "header cut, last byte",
    "CSEG cut",
    "cut, first byte",
    "cut, last byte",
    "past by one",
    "up to the end",
    "sum past 2^32",
    "jump over a group",
    "length over 255",
    "behind a length over 255",
    "no header before",
    "no header before, not the first",
    "loose before the first header",
    "header behind header",
    "behind a group length that lies",
    "over 31 groups",
    "over 255 groups",
    "over 255 children",
    "at the limit",
];

const SITE_REFUSED: [&str; 6] = [
    "16, at the end",
    "16, one past it",
    "16, far past it",
    "16, no bytes",
    "3, a place that is there",
    "3, a place that is not there",
];

fn kinds(line: &Asked) -> Vec<String> {
    let own = match line.verb {
        "section" => section_kinds(line),
        "entry" => entry_kinds(line),
        _ => site_kinds(line),
    };
    let word = if line.is_ok() { "ok" } else { "refused" };
    own.iter()
        .map(|kind| format!("{} {word}: {kind}", line.verb))
        .collect()
}

fn wanted() -> BTreeSet<String> {
    let mut all = BTreeSet::new();
    let mut put = |what: &str, kinds: &[&str]| {
        all.extend(kinds.iter().map(|kind| format!("{what}: {kind}")));
    };
    put("section ok", &SECTION_OK);
    put("section refused", &SECTION_2);
    put("entry ok", &ENTRY_OK);
    put("entry refused", &ENTRY_REFUSED);
    put("entry refused", &["11 at Cntt"]);
    put("site ok", &SITE_OK);
    put("site refused", &SITE_REFUSED);
    for part in ["first byte", "last byte", "length"] {
        for tag in ["CSEG", "Sdec", "Ctab", "Ctb2", "Cntt", "other"] {
            put("site ok", &[&format!("damaged, {part} of {tag}")]);
            if tag != "other" {
                put("site ok", &[&format!("sound, {part} of {tag}")]);
            }
        }
    }
    all
}

#[test]
fn a_script_of_the_three_reaches_every_kind() {
    let lines = asked(&ASKING, 111, 20_000);
    assert_reached(lines.iter().flat_map(kinds), wanted(), 2);
}

/// The answers are of these numbers and no others, none of them rare.
#[test]
fn the_numbers_of_refusal() {
    let table = generate(112, 20_000, &ASKING, std::io::sink()).unwrap();
    let numbers = |verb: &str| -> Vec<u8> {
        let of_verb = table.keys().filter(|(of, _)| *of == verb);
        let number = |(_, outcome): &(&str, Outcome)| match outcome {
            Outcome::Refused(number) => Some(*number),
            _ => None,
        };
        of_verb.filter_map(number).collect()
    };
    assert_eq!(numbers("section"), [2]);
    assert_eq!(numbers("entry"), [2, 3, 6, 7, 8, 9, 10, 11]);
    assert_eq!(numbers("site"), [3, 16]);
    assert!(table.values().all(|&count| count > 5), "{table:?}");
    for (verb, ok) in [("section", 1_500), ("entry", 1_000), ("site", 4_000)] {
        assert!(table[&(verb, Outcome::Ok)] > ok, "{table:?}");
        assert!(
            (40..600).contains(&table[&(verb, Outcome::Bad)]),
            "{table:?}"
        );
    }
}

/// The verbs are there where they are named, each soon by the mixture, and leave the others as they
/// were.
#[test]
fn they_are_there_where_they_are_named() {
    for verb in ASKING {
        let script = Script::new(113, &[verb]);
        let catalogue = script.before_mixture();
        assert!((500..4_000).contains(&catalogue), "{verb} {catalogue}");
        assert!(script.take(4_200).all(|line| verb_of(&line) == verb));
    }
    let mut unnamed = Script::new(113, &[]).take(10_000);
    assert!(unnamed.all(|line| !ASKING.contains(&verb_of(&line))));
    let with: Vec<Vec<u8>> = Script::new(114, &["checked", "where", "section", "entry", "site"])
        .take(1_500)
        .collect();
    let others = |line: &Vec<u8>| !ASKING.contains(&verb_of(line));
    let others = with.into_iter().filter(others);
    let alone = Script::new(114, &["checked", "where"]);
    assert!(others.take(400).eq(alone.take(400)));
}
