//! What the generator must reach: every (verb, answer) pair that document 01 with requests §1, §3,
//! §4 and §6 of document 02 allows and no other, for find and body every number at every kind of
//! place, in writing every kind of right and wrong positions, and in placing every kind of limits.

mod common;

use common::chunks::{edition, groups, names, of_tag, records};
use common::note_kinds::{note_kinds, Asked, OF_ALL, OF_NEAREST};
use common::place_kinds::{behind_another_order, body_kind, file_kind};
use second::body::read_body;
use second::calls::answer;
use second::edition::Edition;
use second::gen::cntts::{has_cntt, position};
use second::gen::{generate, verb_of, Outcome, Script};
use second::record::Record;
use second::script::{bytes, number, record, tokens};
use std::collections::{BTreeMap, BTreeSet};

/// The refusals of a strict body, which come first in every call on one.
const BODY: [u8; 11] = [2, 3, 6, 7, 8, 9, 10, 11, 12, 13, 21];

/// The refusals that the documents allow each verb, beside `ok` and `bad`.
fn allowed_numbers(verb: &str) -> Vec<u8> {
    let with_body = |own: &[u8]| [&BODY, own].concat();
    match verb {
        "find" => vec![1, 2, 3, 4, 5],
        "body" => BODY.to_vec(),
        "group" => with_body(&[14, 16]),
        "voice" | "plays" | "channel" => with_body(&[15, 16]),
        "edit" => with_body(&[15, 16, 22]),
        "part" => with_body(&[15]),
        "where" => with_body(&[16]),
        "place" => vec![9, 16, 17],
        "write" => vec![8, 9, 10, 14, 16, 18, 21],
        "screen" => vec![9, 16, 22],
        "salvage" => vec![3, 14],
        _ => panic!("no such verb: {verb}"),
    }
}

const VERBS: [&str; 13] = [
    "find", "body", "group", "voice", "plays", "place", "write", "edit", "screen", "part", "where",
    "channel", "salvage",
];

fn allowed() -> BTreeSet<(&'static str, Outcome)> {
    let mut pairs = BTreeSet::from([("none", Outcome::Bad)]);
    for verb in VERBS {
        pairs.insert((verb, Outcome::Ok));
        pairs.insert((verb, Outcome::Bad));
        pairs.extend(
            allowed_numbers(verb)
                .into_iter()
                .map(|n| (verb, Outcome::Refused(n))),
        );
    }
    pairs
}

#[test]
fn every_allowed_answer_and_no_other() {
    for seed in [1, 77] {
        let table = generate(seed, 20_000, &[], std::io::sink()).unwrap();
        let reached: BTreeSet<_> = table.keys().copied().collect();
        assert_eq!(reached, allowed(), "seed {seed}");
        assert_eq!(table.values().sum::<u64>(), 20_000);
    }
}

#[test]
fn short_scripts_reach_a_lot() {
    let table = generate(5, 5_000, &[], std::io::sink()).unwrap();
    let reached: BTreeSet<_> = table.keys().copied().collect();
    let missing: Vec<_> = allowed().difference(&reached).copied().collect();
    assert!(missing.is_empty(), "{missing:?}");
}

/// The bytes and the refusal of each refused line of a verb whose first token is BYTES.
fn refusals(verb: &'static str, seed: u64, count: usize) -> Vec<(Vec<u8>, u8, usize)> {
    let mut list = Vec::new();
    for line in Script::new(seed, &[verb]).take(count) {
        let answered = answer(&line);
        let Some(refusal) = answered.strip_prefix("refused ") else {
            continue;
        };
        let numbers: Vec<usize> = refusal
            .split(' ')
            .take(2)
            .map(|word| word.parse().unwrap())
            .collect();
        let held = bytes(tokens(&line).unwrap()[1]).unwrap();
        list.push((held, numbers[0] as u8, numbers[1]));
    }
    list
}

#[test]
fn find_reaches_every_kind_of_place() {
    let expected: BTreeSet<&str> = BTreeSet::from([
        "1 short",
        "1 MThd",
        "1 length not 6",
        "1 MTrk",
        "1 track past the end",
        "2 header cut, first section",
        "2 header cut, later section",
        "2 length past, first section",
        "2 length past, later section",
        "3 file",
        "3 CASM tag, first section",
        "3 CASM tag, later section",
        "4 CASM",
        "4 other tag",
        "5 file length, no section",
        "5 file length, other sections",
    ]);
    let mut reached = BTreeSet::new();
    for (file, number, place) in refusals("find", 3, 2_000) {
        reached.insert(file_kind(&file, number, place));
    }
    let expected: BTreeSet<String> = expected.into_iter().map(str::to_string).collect();
    assert_eq!(reached, expected);
}

/// The kinds of places of a strict body, beside the bytes of a Ctab and of a Ctb2.
const BODY_KINDS: [&str; 56] = [
    "2 group header cut",
    "2 group length past the body",
    "2 header cut after CSEG",
    "2 header cut after Sdec",
    "2 header cut after Ctab",
    "2 header cut after Cntt",
    "2 Sdec past the group",
    "2 Ctab past the group",
    "2 Cntt past the group",
    "6 group tag",
    "6 group empty",
    "6 Ctab after CSEG",
    "6 Cntt after CSEG",
    "6 CSEG after CSEG",
    "6 other after CSEG",
    "6 Sdec after Sdec",
    "6 Sdec after Ctab",
    "6 Sdec after Cntt",
    "6 CSEG after Sdec",
    "6 CSEG after Ctab",
    "6 CSEG after Cntt",
    "6 other after Sdec",
    "6 other after Ctab",
    "6 other after Cntt",
    "6 Ctab after Cntt",
    "7 Ctab",
    "7 Cntt",
    "8 empty text",
    "8 long text",
    "8 byte below",
    "8 byte above",
    "8 empty name",
    "8 long name",
    "8 name twice",
    "9 Cntt channel above",
    "10 Ctab",
    "10 Cntt behind its first",
    "10 Cntt behind others",
    "11 no Ctab at all",
    "11 other Ctabs only",
    "9 Ctab byte 9 below",
    "9 Cntt value 05",
    "9 Cntt value 8B",
    "2 header cut after Ctb2",
    "2 Ctb2 past the group",
    "6 Ctb2 after CSEG",
    "6 Ctb2 after Ctab",
    "6 Ctb2 after Cntt",
    "6 Ctab after Ctb2",
    "6 Cntt after Ctb2",
    "6 Sdec after Ctb2",
    "6 CSEG after Ctb2",
    "6 other after Ctb2",
    "7 Ctb2",
    "9 Ctb2 byte 9 below",
    "10 Ctb2",
];

/// The byte indices of the 27 that have a range.
const RANGED: [usize; 14] = [0, 9, 10, 11, 13, 18, 19, 20, 21, 22, 23, 24, 25, 26];

/// The byte indices of the 47 that have a range, and the three that a rule decides.
const CTB2_RANGED: [usize; 24] = [
    0, 9, 10, 11, 13, 18, 19, 20, 21, 22, 24, 25, 26, 27, 28, 30, 31, 32, 33, 34, 36, 37, 38, 39,
];
const CTB2_TABLES: [usize; 3] = [23, 29, 35];

/// Every (number, kind of place) of a strict body, and whether the first group can have it.
fn body_kinds() -> BTreeMap<String, bool> {
    let mut kinds: BTreeMap<String, bool> = BODY_KINDS
        .iter()
        .map(|kind| (kind.to_string(), true))
        .collect();
    for index in RANGED {
        kinds.insert(format!("9 Ctab byte {index} above"), true);
    }
    for index in CTB2_RANGED {
        kinds.insert(format!("9 Ctb2 byte {index} above"), true);
    }
    for index in CTB2_TABLES {
        for rule in [
            "rule 0",
            "rule 1, bass",
            "rule 2 alone",
            "rule 2 alone, bass",
        ] {
            kinds.insert(format!("9 Ctb2 byte {index}, {rule}"), true);
        }
    }
    kinds.insert("13 name of an earlier group".to_string(), false);
    kinds.insert("21 another edition".to_string(), false);
    kinds
}

#[test]
fn body_reaches_every_kind_of_place_in_every_group() {
    let mut reached: BTreeSet<(String, usize)> = BTreeSet::new();
    for (body, number, place) in refusals("body", 4, 2_000) {
        let (kind, group) = body_kind(&body, number, place);
        reached.insert((kind, group.min(2)));
    }
    for (kind, in_first) in body_kinds() {
        for group in [0, 1, 2] {
            let wanted = group > 0 || in_first;
            let got = reached.contains(&(kind.clone(), group));
            assert_eq!(got, wanted, "{kind}, group {group}");
        }
    }
    assert!(reached.contains(&("3 body".to_string(), 0)));
    assert!(reached.contains(&("12 33rd group".to_string(), 2)));
}

/// The catalogue and the families alone reach each kind somewhere.
#[test]
fn body_reaches_every_kind_early() {
    let reached: BTreeSet<String> = refusals("body", 9, 2_000)
        .iter()
        .map(|(body, number, place)| body_kind(body, *number, *place).0)
        .collect();
    let values = [0x00, 0x03, 0x05, 0x0B, 0x7F, 0x8B, 0xFF];
    let cntt_values = values.map(|value| format!("9 Cntt value {value:02X}"));
    for kind in body_kinds().keys().chain(&cntt_values) {
        assert!(reached.contains(kind), "{kind}");
    }
}

/// What can stand at or behind Cntts of its own group that are not in Ctab order.
const BEHIND_HERE: [&str; 13] = [
    "2 header cut after Cntt",
    "2 Cntt past the group",
    "6 Sdec after Cntt",
    "6 CSEG after Cntt",
    "6 other after Cntt",
    "6 Ctab after Cntt",
    "7 Cntt",
    "9 Cntt channel above",
    "9 Cntt value 05",
    "9 Cntt value 8B",
    "10 Cntt behind its first",
    "10 Cntt behind others",
    "11 other Ctabs only",
];

/// What can stand behind a whole group of that kind.
const BEHIND_GROUP: [&str; 10] = [
    "2 group header cut",
    "2 group length past the body",
    "6 group tag",
    "6 group empty",
    "7 Ctab",
    "8 empty name",
    "9 Ctab byte 9 below",
    "10 Ctab",
    "12 33rd group",
    "13 name of an earlier group",
];

/// Refusals that a rule on the order of Cntts would hide are reached, by every verb on a body.
#[test]
fn bodies_reach_what_stands_behind_another_order() {
    for verb in [
        "body", "group", "voice", "plays", "edit", "where", "channel",
    ] {
        let mut reached = BTreeSet::new();
        for (body, number, place) in refusals(verb, 17, 1_700) {
            if read_body(&body).is_err() {
                let (kind, _) = body_kind(&body, number, place);
                reached.insert((kind, behind_another_order(&body, place)));
            }
        }
        for kind in BEHIND_HERE {
            let got = reached.contains(&(kind.to_string(), (true, true)));
            assert!(got, "{verb}: {kind}");
        }
        for kind in BEHIND_GROUP {
            let got = reached.iter().any(|(k, (seen, _))| k == kind && *seen);
            assert!(got, "{verb}: {kind}");
        }
    }
}

/// The positions of the records up to the count that have a Cntt, and of those that have none.
fn positions(line: &[u8]) -> Option<(Vec<u8>, Vec<u8>)> {
    let words = tokens(line).filter(|words| words.len() > 3)?;
    let count = number(words[2])? as usize;
    let judged: Option<Vec<Record>> = words[4..].get(..count)?.iter().map(|r| record(r)).collect();
    let (with, without): (Vec<Record>, Vec<Record>) = judged?.iter().partition(|r| has_cntt(r));
    let of = |records: Vec<Record>| records.iter().map(position).collect();
    Some((of(with), of(without)))
}

/// What is wrong with positions: each kind once, in the order of this list.
fn wrong_kinds(with: &[u8], without: &[u8]) -> Vec<&'static str> {
    let most = with.len() as u8;
    let mut sorted = with.to_vec();
    sorted.sort_unstable();
    let twice = sorted.windows(2).any(|pair| pair[0] == pair[1]);
    let bare: Vec<u8> = without.iter().copied().filter(|&p| p > 0).collect();
    let kinds = [
        ("a gap", sorted.iter().any(|&p| p > most && p <= 16)),
        ("one position twice", twice && !with.contains(&0)),
        (
            "all the same",
            most > 2 && sorted[0] == sorted[sorted.len() - 1],
        ),
        ("0 with a Cntt", with.contains(&0)),
        (
            "counted from 0",
            most > 1 && sorted.iter().copied().eq(0..most),
        ),
        (
            "counted from 2",
            most > 1 && sorted.iter().copied().eq(2..most + 2),
        ),
        ("above 16", with.iter().any(|&p| p > 16)),
        ("255", with.contains(&255)),
        ("without a Cntt", !bare.is_empty()),
        (
            "the next without a Cntt",
            most > 0 && bare.contains(&(most + 1)),
        ),
        (
            "one that another has",
            bare.iter().any(|p| with.contains(p)),
        ),
        ("255 without a Cntt", bare.contains(&255)),
    ];
    kinds
        .into_iter()
        .filter(|kind| kind.1)
        .map(|kind| kind.0)
        .collect()
}

/// The kinds of right positions, each with several Cntts.
fn right_kinds(with: &[u8], without: &[u8]) -> Vec<&'static str> {
    let sorted = with.is_sorted();
    let reversed = with.iter().rev().is_sorted();
    let several = with.len() > 1;
    let kinds = [
        ("no Cntt", with.is_empty()),
        ("one Cntt", with.len() == 1),
        ("in Ctab order", several && sorted),
        ("reversed", several && reversed),
        ("shuffled", several && !sorted && !reversed),
        ("beside others", several && !sorted && !without.is_empty()),
        (
            "sixteen, shuffled",
            with.len() == 16 && !sorted && !reversed,
        ),
    ];
    kinds
        .into_iter()
        .filter(|kind| kind.1)
        .map(|kind| kind.0)
        .collect()
}

/// Every kind of right and wrong positions, each wrong kind alone too; wrong ones together with
/// each other refusal of writing; and right ones in several orders often.
#[test]
fn write_reaches_every_kind_of_positions() {
    let mut reached: BTreeMap<String, usize> = BTreeMap::new();
    for line in Script::new(18, &["write"]).take(9_000) {
        let told = answer(&line);
        let told: Vec<&str> = told.split(' ').collect();
        let Some((with, without)) = positions(&line).filter(|_| told[0] != "bad") else {
            continue;
        };
        let outcome = told[..2].join(" ");
        let wrong = wrong_kinds(&with, &without);
        if told[0] == "ok" {
            assert!(wrong.is_empty());
            for kind in right_kinds(&with, &without) {
                *reached.entry(format!("ok {kind}")).or_insert(0) += 1;
            }
        } else if outcome == "refused 18" {
            for kind in &wrong {
                *reached.entry(format!("18 {kind}")).or_insert(0) += 1;
            }
            assert!(!wrong.is_empty(), "{with:?} {without:?}");
        } else if !wrong.is_empty() {
            *reached.entry(format!("wrong, {outcome}")).or_insert(0) += 1;
        }
    }
    let right = [
        "no Cntt",
        "one Cntt",
        "in Ctab order",
        "reversed",
        "shuffled",
        "beside others",
    ];
    for kind in right {
        assert!(reached[&format!("ok {kind}")] > 100, "{kind} {reached:?}");
    }
    assert!(reached["ok sixteen, shuffled"] > 3, "{reached:?}");
    let wrong = [
        "a gap",
        "one position twice",
        "all the same",
        "0 with a Cntt",
        "counted from 0",
        "counted from 2",
        "above 16",
        "255",
        "without a Cntt",
        "the next without a Cntt",
        "one that another has",
        "255 without a Cntt",
    ];
    for kind in wrong {
        assert!(reached[&format!("18 {kind}")] > 4, "{kind} {reached:?}");
    }
    for number in [8, 9, 10] {
        let kind = format!("wrong, refused {number}");
        assert!(reached[&kind] > 10, "{kind} {reached:?}");
    }
    assert!(!reached.contains_key("wrong, refused 14"), "{reached:?}");
}

/// Whether all RECs are of the first edition.
fn of_first_edition(records: &[&[u8]]) -> bool {
    let edition = |rec: &&[u8]| record(rec).map(|record| record.edition());
    records
        .iter()
        .all(|rec| edition(rec) == Some(Edition::First))
}

/// Whether a record's position is wrong whatever the others have.
fn wrong_alone(record: &Record) -> bool {
    position(record) > 16 || has_cntt(record) != (position(record) > 0)
}

/// Which meeting of wrong positions with something else a `write` line is, by its answer.
fn meetings_of_18(words: &[&[u8]], told: &[&str]) -> Vec<String> {
    let table: Vec<Record> = words[4..].iter().map(|r| record(r).unwrap()).collect();
    let count = number(words[2]).unwrap() as usize;
    let (judged, beyond) = table.split_at(count.min(table.len()));
    let any = |records: &[Record]| records.iter().any(wrong_alone);
    let mut meetings = Vec::new();
    match (told[0], told[1]) {
        ("ok", _) if any(beyond) => meetings.push("ok, wrong past the count".to_string()),
        ("refused", "18") => {
            let cntts = judged.iter().filter(|r| has_cntt(r)).count();
            let length = 16 + bytes(words[1]).unwrap().len() + 35 * count + 10 * cntts;
            let short = (number(words[3]).unwrap() as usize) < length;
            meetings.push(if short { "18 and 14" } else { "18" }.to_string());
        }
        ("refused", number @ ("8" | "16")) if any(judged) => meetings.push(number.to_string()),
        ("refused", number @ ("9" | "10")) => {
            let row = told[2].parse::<usize>().unwrap() / 27;
            if any(&judged[..row]) {
                meetings.push(format!("{number} of a later record"));
            }
            if any(&judged[row + 1..]) {
                meetings.push(format!("{number} of an earlier record"));
            }
        }
        _ => (),
    }
    meetings
}

/// Wrong positions meet 16, 8, a 9 and a 10 of an earlier and of a later record, and too little
/// room; and records past the count have any position.
#[test]
fn write_reaches_every_meeting_of_18() {
    let mut reached = BTreeSet::new();
    for line in Script::new(19, &["write"]).take(1_700) {
        let told = answer(&line);
        let told: Vec<&str> = told.split(' ').collect();
        let words = tokens(&line).unwrap_or_default();
        if told[0] != "bad" && of_first_edition(&words[4..]) {
            reached.extend(meetings_of_18(&words, &told));
        }
    }
    let wanted = [
        "10 of a later record",
        "10 of an earlier record",
        "16",
        "18",
        "18 and 14",
        "8",
        "9 of a later record",
        "9 of an earlier record",
        "ok, wrong past the count",
    ];
    assert_eq!(reached.iter().collect::<Vec<_>>(), wanted);
}

/// Any position, right and wrong, with and without a Cntt, is put to place, edit and screen, and
/// `group` prints Cntts that are not in Ctab order.
#[test]
fn positions_of_the_other_verbs() {
    for (verb, spot) in [("place", 1), ("edit", 4), ("screen", 1)] {
        let mut reached = BTreeSet::new();
        for line in Script::new(20, &[verb]).take(5_000) {
            if answer(&line).starts_with("ok") {
                let given = record(tokens(&line).unwrap()[spot]).unwrap();
                reached.insert((has_cntt(&given), position(&given)));
            }
        }
        for position in [0, 1, 2, 3, 15, 16, 17, 128, 238, 255] {
            for cntt in [false, true] {
                assert!(reached.contains(&(cntt, position)), "{verb} {position}");
            }
        }
    }
    let mut printed = 0;
    for line in Script::new(20, &["group"]).take(5_000) {
        let told = answer(&line);
        let records = told.split(' ').filter_map(|word| record(word.as_bytes()));
        let positions: Vec<u8> = records
            .filter(has_cntt)
            .map(|record| position(&record))
            .collect();
        printed += usize::from(!positions.is_sorted());
    }
    assert!(printed > 100, "{printed}");
}

/// The low limits of each number of keys.
type Lows = BTreeMap<usize, BTreeSet<i32>>;

/// How often each kind of limits is reached, and at which low limits each width is, by so many
/// lines of `place`.
fn limits_reached(seed: u64, count: usize) -> (BTreeMap<String, usize>, Lows) {
    let mut reached = BTreeMap::new();
    let mut lows = Lows::new();
    for line in Script::new(seed, &["place"]).take(count) {
        let told = answer(&line);
        if told == "bad" {
            continue;
        }
        let asked = Asked::of(&tokens(&line).unwrap());
        for kind in note_kinds(&asked, &told) {
            *reached.entry(kind).or_insert(0) += 1;
        }
        if told.starts_with("ok") {
            if let Some(keys) = asked.narrow_keys() {
                lows.entry(keys).or_default().insert(asked.low);
            }
        }
    }
    (reached, lows)
}

/// The kinds of limits: every width with and without an octave within, crossed limits, both ends,
/// ties, the nearer octave below 0 or above 127, bypass, and refusals with such limits.
fn kinds_of_limits() -> BTreeSet<String> {
    let mut kinds: BTreeSet<String> = OF_NEAREST
        .iter()
        .map(|kind| format!("nearest, {kind}"))
        .collect();
    kinds.extend(OF_ALL.map(str::to_string));
    for keys in 1..=12 {
        kinds.insert(format!("{keys} keys, within"));
    }
    for keys in 1..=11 {
        kinds.insert(format!("{keys} keys, nearest"));
    }
    kinds
}

/// Every kind of limits, by the catalogue alone and often by the mixture; every width at two
/// thirds of the low limits that it can have, or more.
#[test]
fn place_reaches_every_kind_of_limits() {
    let catalogue = Script::new(14, &["place"]).before_mixture();
    let (early, _) = limits_reached(14, catalogue);
    let early: BTreeSet<String> = early.into_keys().collect();
    assert_eq!(early, kinds_of_limits());
    let (reached, lows) = limits_reached(15, 20_000);
    for kind in kinds_of_limits() {
        assert!(reached[&kind] > 20, "{kind} {}", reached[&kind]);
    }
    for keys in 1..=12 {
        let most = 129 - keys;
        let got = lows[&keys].len();
        assert!(3 * got > 2 * most, "{keys} keys at {got} of {most}");
    }
}

/// Refusal places of the verbs on records: every byte index that has a range, of both editions.
#[test]
fn record_verbs_reach_every_byte() {
    for (verb, spot) in [("place", 1), ("screen", 1), ("write", 4), ("edit", 4)] {
        let mut reached = BTreeSet::new();
        for line in Script::new(6, &[verb]).take(1_700) {
            let answered = answer(&line);
            let mut words = answered.split(' ');
            if words.next() == Some("refused") && words.next() == Some("9") {
                let place = words.next().unwrap().parse::<usize>().unwrap();
                let size = record(tokens(&line).unwrap()[spot]).map(|r| r.edition().size());
                reached.insert((size, place));
            }
        }
        let tables = [&CTB2_RANGED[..], &CTB2_TABLES].concat();
        let records = if verb == "write" { 3 } else { 1 };
        for (size, ranged) in [(27, &RANGED[..13]), (47, &tables)] {
            for record in 0..records {
                for index in ranged {
                    let possible = verb != "edit" || *index != 0;
                    let got = reached.contains(&(Some(size), size * record + index));
                    assert_eq!(got, possible, "{verb} {size} {record} {index}");
                }
            }
        }
    }
}

/// Which of so many: the only one, the first, a middle one or the last.
fn which(number: usize, count: usize) -> &'static str {
    match number {
        0 if count == 1 => "only",
        0 => "first",
        _ if number + 1 == count => "last",
        _ => "middle",
    }
}

/// Which records a group has, and how many of them have a Cntt.
fn shape(edition: usize, records: usize, cntts: usize) -> &'static str {
    match (edition, records, cntts) {
        (0, ..) => "no record",
        (2, 1, _) => "a Ctb2",
        (2, ..) => "Ctb2s",
        (_, _, 0) => "Ctabs, no Cntt",
        _ if records == cntts => "Ctabs, a Cntt each",
        _ => "Ctabs, some Cntts",
    }
}

/// What kind of name no group has.
fn no_part(part: &[u8]) -> &'static str {
    match part {
        [] => "empty",
        _ if part.contains(&b',') => "comma",
        _ if part.iter().any(|&byte| byte < 0x20) => "byte below",
        _ if part.iter().any(|&byte| byte > 0x7E) => "byte above",
        _ if part.len() > 16 => "long",
        _ => "no such name",
    }
}

/// What kind of answer a lookup in an accepted body has.
fn lookup_kind(verb: &str, words: &[&[u8]], answered: &[&str]) -> String {
    let body = bytes(words[1]).unwrap();
    let groups = groups(&body);
    let asked = number(words[2]).unwrap_or(0) as usize;
    let number_of = |word: usize| answered[word].parse::<usize>().unwrap();
    let group = if verb == "part" { number_of(1) } else { asked };
    if answered[0] == "refused" {
        return match (answered[1], verb) {
            ("15", "part") => no_part(&bytes(words[2]).unwrap()).to_string(),
            ("15", _) => {
                let channel = number(words[3]).unwrap();
                let some = ["no record", "other Ctabs", "other Ctb2s"][edition(&groups[asked].1)];
                format!("15, {some}, {}", channel.clamp(15, 17))
            }
            _ if groups.is_empty() => "16, no group".to_string(),
            _ => format!("16, past by {}", (asked - groups.len()).min(1)),
        };
    }
    let children = &groups[group].1;
    let cntts = of_tag(children, b"Cntt").len();
    let own = match verb {
        "part" => {
            let part = bytes(words[2]).unwrap();
            let names = names(children);
            let number = names.iter().position(|&name| name == part).unwrap();
            which(number, names.len())
        }
        "where" => shape(edition(children), records(children).len(), cntts),
        _ => which(number_of(1), records(children).len()),
    };
    let of_second = verb == "channel" && edition(children) == 2;
    let tail = if of_second { " of Ctb2s" } else { "" };
    format!("{} group, {own}{tail}", which(group, groups.len()))
}

/// The kinds of answer of a lookup: in the only, the first, a middle and the last group, each of
/// these; and the refusals that come after the body's.
fn lookup_kinds(verb: &str) -> BTreeSet<String> {
    let shapes = [
        (0, 0, 0),
        (1, 1, 0),
        (1, 2, 1),
        (1, 1, 1),
        (2, 1, 0),
        (2, 3, 0),
    ];
    let shapes = shapes.map(|(edition, records, cntts)| shape(edition, records, cntts));
    let four = ["only", "first", "middle", "last"];
    let mut kinds = BTreeSet::new();
    for group in four {
        let own = if verb == "where" { &shapes[..] } else { &four };
        for own in own {
            kinds.insert(format!("{group} group, {own}"));
            if verb == "channel" {
                kinds.insert(format!("{group} group, {own} of Ctb2s"));
            }
        }
    }
    let no_parts = [
        "empty",
        "comma",
        "byte below",
        "byte above",
        "long",
        "no such name",
    ];
    let no_groups = ["16, no group", "16, past by 0", "16, past by 1"];
    match verb {
        "part" => kinds.extend(no_parts.map(str::to_string)),
        _ => kinds.extend(no_groups.map(str::to_string)),
    }
    if verb == "channel" {
        for channel in [15, 16, 17] {
            kinds.insert(format!("15, no record, {channel}"));
            kinds.insert(format!("15, other Ctabs, {channel}"));
            kinds.insert(format!("15, other Ctb2s, {channel}"));
        }
    }
    kinds
}

#[test]
fn lookups_reach_every_kind() {
    for verb in ["part", "where", "channel"] {
        let mut reached = BTreeSet::new();
        for line in Script::new(16, &[verb]).take(1_700) {
            let told = answer(&line);
            let told: Vec<&str> = told.split(' ').collect();
            if told[0] == "ok" || (told[0] == "refused" && matches!(told[1], "15" | "16")) {
                reached.insert(lookup_kind(verb, &tokens(&line).unwrap(), &told));
            }
        }
        let wanted = lookup_kinds(verb);
        let missing: Vec<_> = wanted.difference(&reached).collect();
        assert!(missing.is_empty(), "{verb}: {missing:?}");
    }
}

/// Salvage lists entries of every kind: sound, loose, and each refusal of a group.
#[test]
fn salvage_reaches_every_kind() {
    let mut kinds = BTreeSet::new();
    for line in Script::new(2, &["salvage"]).take(1_000) {
        let answered = answer(&line);
        for entry in answered.split(' ').filter(|word| word.contains(',')) {
            kinds.insert(entry.rsplit(',').next().unwrap().to_string());
        }
    }
    let expected = ["0", "10", "11", "2", "6", "7", "8", "9"];
    assert_eq!(kinds.iter().collect::<Vec<_>>(), expected);
}

#[test]
fn the_same_seed_gives_the_same_script() {
    let print = |seed: u64, count: u64| {
        let mut text = Vec::new();
        generate(seed, count, &[], &mut text).unwrap();
        text
    };
    let once = print(8, 3_000);
    assert!(once == print(8, 3_000));
    assert!(once != print(9, 3_000));
    assert!(print(8, 4_000).starts_with(&once));
}

#[test]
fn count_lines_exactly() {
    for count in [0, 1, 2, 999] {
        let mut text = Vec::new();
        generate(1, count, &["place", "screen"], &mut text).unwrap();
        let newlines = text.iter().filter(|&&byte| byte == b'\n').count();
        assert_eq!(newlines as u64, count);
    }
}

#[test]
fn named_verbs_only() {
    for verb in VERBS {
        for line in Script::new(11, &[verb]).take(3_000) {
            assert_eq!(verb_of(&line), verb, "{}", String::from_utf8_lossy(&line));
        }
    }
    let both: BTreeSet<&str> = Script::new(1, &["edit", "find"])
        .take(500)
        .map(|line| verb_of(&line))
        .collect();
    assert_eq!(both, BTreeSet::from(["edit", "find"]));
}

#[test]
fn the_mixture_begins_soon() {
    for verb in VERBS {
        let lines = Script::new(13, &[verb]).before_mixture();
        assert!((200..2_000).contains(&lines), "{verb} {lines}");
    }
}

#[test]
fn most_lines_are_short() {
    let short = Script::new(12, &[])
        .take(20_000)
        .filter(|line| line.len() < 2_000)
        .count();
    assert!(short > 19_000, "{short}");
}
