//! What the generator must reach of read only records (document 02, §6): 22 in an edit and on the
//! screen where it meets each other refusal, and lines that tell each wrong reading from the right.

mod common;

use common::answered::answered;
use common::reached::counted;
use second::body::read_body;
use second::gen::{generate, Outcome, Script};
use second::lookup::find_channel;
use second::ranges::{first_out_of_range, may_stand};
use second::record::Record;
use second::script::{bytes, number, record};
use std::collections::BTreeMap;

/// The number answered; 0 accepts.
fn told(words: &[String]) -> u8 {
    match words[0].as_str() {
        "ok" => 0,
        _ => words[1].parse().unwrap(),
    }
}

/// An edit that finds a record, as its line states it.
struct Edit {
    old: Record,
    new: Record,
    channel: u8,
    overriding: bool,
    told: u8,
}

/// The edits of a script up to those that find no record.
fn edits(seed: u64, count: usize) -> Vec<Edit> {
    let mut list = Vec::new();
    for (parts, words) in answered("edit", seed, count) {
        let body = bytes(&parts[1]).unwrap();
        let group = number(&parts[2]).unwrap();
        let channel = number(&parts[3]).unwrap() as u8;
        let Ok((row, _)) = find_channel(&body, group, channel) else {
            continue;
        };
        list.push(Edit {
            old: read_body(&body).unwrap()[group as usize].records[row].record,
            new: record(&parts[4]).unwrap(),
            channel,
            overriding: parts[5].ends_with(b"1"),
            told: told(&words),
        });
    }
    list
}

impl Edit {
    fn moved(&self) -> bool {
        self.new[0] != self.channel
    }

    fn unlike(&self) -> bool {
        self.new.edition() != self.old.edition()
    }

    fn bad(&self) -> bool {
        first_out_of_range(self.new.edition(), self.new.bytes()).is_some()
    }

    /// Each thing that holds of it, behind its edition and answer.
    fn kinds(&self) -> Vec<String> {
        let lock = if self.old[10] == 1 { "locked" } else { "free" };
        let over = if self.overriding { ", override" } else { "" };
        let kind = format!("{:?} {lock}{over}: {}", self.old.edition(), self.told);
        let same = self.new.bytes() == self.old.bytes();
        let mut kinds = vec![kind.clone()];
        for (what, is) in [
            ("a bad byte", self.bad()),
            ("a bad byte 10", self.new[10] > 1),
            ("another channel", self.moved()),
            ("another edition", self.unlike()),
            ("both other", self.moved() && self.unlike()),
            ("clears", self.new[10] == 0 && self.old[10] == 1),
            ("sets", self.new[10] == 1 && self.old[10] == 0),
            ("changes nothing", same),
        ] {
            if is {
                kinds.push(format!("{kind}, {what}"));
            }
        }
        kinds
    }
}

const OF_EDITS: [&str; 28] = [
    "locked: 22",
    "locked: 22, a bad byte",
    "locked: 22, a bad byte 10",
    "locked: 22, clears",
    "locked: 22, changes nothing",
    "locked: 21, another edition",
    "locked: 21, a bad byte",
    "locked: 21, clears",
    "locked: 16, another channel",
    "locked: 16, a bad byte",
    "locked: 16, both other",
    "locked, override: 0",
    "locked, override: 0, clears",
    "locked, override: 0, changes nothing",
    "locked, override: 9, a bad byte",
    "locked, override: 9, a bad byte 10",
    "locked, override: 16, another channel",
    "locked, override: 21, another edition",
    "free: 0",
    "free: 0, sets",
    "free: 0, changes nothing",
    "free: 9, a bad byte",
    "free: 9, a bad byte 10",
    "free: 16, another channel",
    "free: 21, another edition",
    "free, override: 0",
    "free, override: 0, sets",
    "free, override: 9, a bad byte",
];

fn assert_reached(counts: &BTreeMap<String, usize>, wanted: &[&str], least: usize) {
    for edition in ["First", "Second"] {
        for kind in wanted {
            let kind = format!("{edition} {kind}");
            let got = counts.get(&kind).copied().unwrap_or(0);
            assert!(got >= least, "{kind}: {got} of {counts:?}");
        }
    }
}

/// By the catalogue alone, and often by the mixture.
#[test]
fn edit_reaches_every_meeting_of_22() {
    let catalogue = Script::new(61, &["edit"]).before_mixture();
    let early = edits(61, catalogue);
    assert_reached(&counted(early.iter().flat_map(Edit::kinds)), &OF_EDITS, 1);
    let late = edits(62, 15_000);
    let late = late.iter().flat_map(Edit::kinds);
    assert_reached(&counted(late), &OF_EDITS, 2);
}

/// A key press, as its line states it.
struct Press {
    record: Record,
    index: usize,
    value: u8,
    told: u8,
}

fn presses(seed: u64, count: usize) -> Vec<Press> {
    let press = |(parts, words): (Vec<Vec<u8>>, Vec<String>)| Press {
        record: record(&parts[1]).unwrap(),
        index: number(&parts[2]).unwrap() as usize,
        value: number(&parts[3]).unwrap() as u8,
        told: told(&words),
    };
    answered("screen", seed, count)
        .into_iter()
        .map(press)
        .collect()
}

impl Press {
    fn beyond(&self) -> bool {
        self.index >= self.record.edition().fields()
    }

    fn bad(&self) -> bool {
        let edition = self.record.edition();
        !self.beyond() && !may_stand(edition, self.record.bytes(), self.index, self.value)
    }

    fn kinds(&self) -> Vec<String> {
        let lock = match self.record[10] {
            0 => "free",
            1 => "locked",
            2 => "02",
            0xFF => "ff",
            _ => "unsound",
        };
        let kind = format!("{:?} {lock}: {}", self.record.edition(), self.told);
        let same = !self.beyond() && self.record[self.index] == self.value;
        let mut kinds = vec![kind.clone()];
        for (what, is) in [
            ("a bad value".to_string(), self.bad()),
            ("the same value".to_string(), same),
            (format!("index 10 to {}", self.value), self.index == 10),
            (format!("index {}", self.index), self.told == 22),
        ] {
            if is {
                kinds.push(format!("{kind}, {what}"));
            }
        }
        kinds
    }
}

const OF_PRESSES: [&str; 23] = [
    "locked: 22",
    "locked: 22, a bad value",
    "locked: 22, the same value",
    "locked: 16",
    "locked: 0, index 10 to 0",
    "locked: 0, index 10 to 1",
    "locked: 9, index 10 to 2",
    "locked: 9, index 10 to 255",
    "free: 0",
    "free: 9",
    "free: 16",
    "free: 0, index 10 to 0",
    "free: 0, index 10 to 1",
    "free: 9, index 10 to 2",
    "02: 0",
    "02: 9",
    "02: 0, index 10 to 0",
    "02: 0, index 10 to 1",
    "ff: 0",
    "ff: 9",
    "ff: 0, index 10 to 0",
    "unsound: 0",
    "unsound: 9",
];

/// By the catalogue alone, every index but 10 among them, and often by the mixture.
#[test]
fn screen_reaches_every_meeting_of_22() {
    let catalogue = Script::new(63, &["screen"]).before_mixture();
    let early = presses(63, catalogue);
    let early = counted(early.iter().flat_map(Press::kinds));
    assert_reached(&early, &OF_PRESSES, 1);
    for (edition, fields) in [("First", 26), ("Second", 47)] {
        let refused =
            |index: &usize| early.contains_key(&format!("{edition} locked: 22, index {index}"));
        let reached: Vec<usize> = (0..48).filter(refused).collect();
        let wanted: Vec<usize> = (0..fields).filter(|&index| index != 10).collect();
        assert_eq!(reached, wanted, "{edition}");
    }
    let late = presses(64, 15_000);
    assert_reached(&counted(late.iter().flat_map(Press::kinds)), &OF_PRESSES, 2);
}

/// 22 is met often, and lines of `edit` that break the grammar are rare but there.
#[test]
fn shares_of_22_and_bad() {
    for seed in [65, 66] {
        let table = generate(seed, 20_000, &["edit"], std::io::sink()).unwrap();
        assert!(table[&("edit", Outcome::Refused(22))] > 1_500, "{table:?}");
        assert!(table[&("edit", Outcome::Ok)] > 4_000, "{table:?}");
        assert!((300..1_500).contains(&table[&("edit", Outcome::Bad)]));
        let table = generate(seed, 20_000, &["screen"], std::io::sink()).unwrap();
        let met = table[&("screen", Outcome::Refused(22))];
        assert!((3_000..8_000).contains(&met), "{table:?}");
    }
}

/// Which of an edit's refusals holds; 22 by some reading of the lock.
fn first_of(order: [u8; 4], edit: &Edit, locked: bool) -> u8 {
    let holds = |number: &u8| match number {
        16 => edit.moved(),
        21 => edit.unlike(),
        22 => locked,
        _ => edit.bad(),
    };
    order.into_iter().find(holds).unwrap_or(0)
}

/// The right reading of an edit, then wrong ones.
fn edit_readings(edit: &Edit) -> Vec<(&'static str, u8)> {
    const ORDER: [u8; 4] = [16, 21, 22, 9];
    let (old, new) = (edit.old[10] == 1, edit.new[10] == 1);
    let asked = !edit.overriding;
    let same = edit.old.bytes() == edit.new.bytes();
    let by = |order: [u8; 4], locked: bool| first_of(order, edit, locked);
    vec![
        ("right", by(ORDER, old && asked)),
        ("never locked", by(ORDER, false)),
        ("the new record's byte 10", by(ORDER, new && asked)),
        ("either byte 10", by(ORDER, (old || new) && asked)),
        ("both bytes 10", by(ORDER, old && new && asked)),
        (
            "the new record's not 00",
            by(ORDER, edit.new[10] != 0 && asked),
        ),
        (
            "changing nothing let through",
            by(ORDER, old && asked && !same),
        ),
        ("override ignored", by(ORDER, old)),
        ("override turned round", by(ORDER, old && !asked)),
        ("all locked without override", by(ORDER, asked)),
        ("22 after 9", by([16, 21, 9, 22], old && asked)),
        ("22 before 21", by([16, 22, 21, 9], old && asked)),
        ("22 before 16", by([22, 16, 21, 9], old && asked)),
    ]
}

/// The right reading of a key press, then wrong ones.
fn press_readings(press: &Press) -> Vec<(&'static str, u8)> {
    let byte = press.record[10];
    let (locked, ten) = (byte == 1, press.index == 10);
    let clears = ten && press.value == 0;
    let same = !press.beyond() && press.record[press.index] == press.value;
    let by = |order: [u8; 3], locked: bool| {
        let holds = |number: &u8| match number {
            16 => press.beyond(),
            22 => locked,
            _ => press.bad(),
        };
        order.into_iter().find(holds).unwrap_or(0)
    };
    const ORDER: [u8; 3] = [16, 22, 9];
    vec![
        ("right", by(ORDER, locked && !ten)),
        ("never locked", by(ORDER, false)),
        ("index 10 refused", by(ORDER, locked)),
        ("index 10 free only to clear", by(ORDER, locked && !clears)),
        (
            "a bad byte 10 is 22",
            by(ORDER, locked && (!ten || press.bad())),
        ),
        ("any byte 10 but 00", by(ORDER, byte != 0 && !ten)),
        ("bit 0 of byte 10", by(ORDER, byte & 1 == 1 && !ten)),
        ("any byte 10 in range", by(ORDER, byte <= 1 && !ten)),
        (
            "the same value let through",
            by(ORDER, locked && !ten && !same),
        ),
        ("22 after 9", by([16, 9, 22], locked && !ten)),
        ("22 before 16", by([22, 16, 9], locked && !ten)),
    ]
}

/// How many lines tell each wrong reading from what was answered, which is the right one's.
fn told_apart(
    lines: impl Iterator<Item = (u8, Vec<(&'static str, u8)>)>,
) -> BTreeMap<&'static str, usize> {
    let mut counts = BTreeMap::new();
    for (told, readings) in lines {
        assert_eq!(readings[0], ("right", told));
        for (name, other) in &readings[1..] {
            *counts.entry(*name).or_insert(0) += usize::from(*other != told);
        }
    }
    counts
}

/// Each wrong reading of the request is told apart by a script of the length that is compared.
#[test]
fn wrong_readings_are_told_apart() {
    let edits = edits(67, 20_000);
    let of_edits = told_apart(edits.iter().map(|edit| (edit.told, edit_readings(edit))));
    let presses = presses(68, 20_000);
    let of_presses = told_apart(
        presses
            .iter()
            .map(|press| (press.told, press_readings(press))),
    );
    assert_eq!((of_edits.len(), of_presses.len()), (12, 10));
    for counts in [of_edits, of_presses] {
        assert!(counts.values().all(|&lines| lines > 10), "{counts:?}");
    }
}
