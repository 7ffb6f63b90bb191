//! The request's third demand "for any choice of groups replaced at once", and the bytes of each
//! entry by itself (document 02, §10), on generated bodies; their groups are of both editions, since
//! "The salvage list takes each group by itself, so it may show both" (document 02, §4).

use second::edition::Edition;
use second::gen::dice::Dice;
use second::gen::draft::Draft;
use second::gen::sound;
use second::gen::Script;
use second::salvage::{salvage, Entry};
use second::script::{bytes, tokens};
use std::collections::BTreeMap;

/// Place, length and kind.
type Listed = (usize, usize, u8);

/// The salvage list of a body; no entry is empty, so its bytes are room enough.
fn list(body: &[u8]) -> Vec<Listed> {
    let none = Entry {
        place: 7,
        length: 7,
        kind: 7,
    };
    let mut lent = vec![none; body.len()];
    let count = salvage(body, &mut lent).unwrap();
    lent[..count]
        .iter()
        .map(|entry| (entry.place, entry.length, entry.kind))
        .collect()
}

/// Where the letters CSEG stand.
fn csegs(bytes: &[u8]) -> Vec<usize> {
    (0..bytes.len())
        .filter(|&place| bytes[place..].starts_with(b"CSEG"))
        .collect()
}

/// Texts of groups; most end with first letters of CSEG.
const TEXTS: [&str; 8] = [
    "Main A",
    "Main C",
    "Intro CS",
    "xCSE",
    "C",
    "CSE",
    "Ending A,CS",
    "Fill In AA",
];

/// A sound group of either edition with the letters CSEG nowhere but at its start.
fn group(dice: &mut Dice) -> Vec<u8> {
    loop {
        let text = dice.pick(&TEXTS);
        let count = dice.pick(&[0, 0, 0, 1, 2]);
        let edition = dice.pick(&[Edition::First, Edition::Second]);
        let records = sound::records_of(dice, edition, count);
        let group = Draft::new(text.as_bytes(), &records).bytes();
        if csegs(&group) == [0] {
            return group;
        }
    }
}

/// Whether a list has groups of this edition, by the tag behind each one's Sdec.
fn has(body: &[u8], listed: &[Listed], tag: &[u8; 4]) -> bool {
    let sound = listed.iter().filter(|entry| entry.2 == 0);
    sound.map(|entry| entry.0).any(|place| {
        let text = usize::from(body[place + 15]);
        body[place + 16 + text..].starts_with(tag)
    })
}

/// Whether a list shows groups of both editions.
fn both(body: &[u8], listed: &[Listed]) -> bool {
    has(body, listed, b"Ctab") && has(body, listed, b"Ctb2")
}

fn noise(dice: &mut Dice, most: usize) -> Vec<u8> {
    let length = dice.below(most + 1);
    (0..length).map(|_| dice.byte()).collect()
}

/// "Other bytes, of any number, in place of one group".
fn new_bytes(dice: &mut Dice, old: &[u8]) -> Vec<u8> {
    let cut = dice.between(1, 3);
    let (first, last) = b"CSEG".split_at(cut);
    match dice.below(12) {
        0 | 1 => Vec::new(),
        2 => noise(dice, 40),
        3 => noise(dice, 900),
        4 => first.to_vec(),
        5 => [&noise(dice, 9), first].concat(),
        6 => last.to_vec(),
        7 => [last, &noise(dice, 9)].concat(),
        8 => [&noise(dice, 9), &b"CSEG"[..], &noise(dice, 9)].concat(),
        9 => old[..dice.below(old.len())].to_vec(),
        10 => [group(dice), noise(dice, 5)].concat(),
        _ => {
            let mut bytes = old.to_vec();
            let place = dice.below(bytes.len());
            bytes[place] ^= 1 << dice.below(8);
            bytes
        }
    }
}

/// "Replaced neighbours count as one run": where it begins in the new body, and the new bytes of
/// each of the neighbours.
struct Run {
    start: usize,
    new: Vec<Vec<u8>>,
}

/// A body before and after; the groups, where they stood and where those that are left stand.
struct Case {
    before: Vec<u8>,
    after: Vec<u8>,
    stood: Vec<Listed>,
    standing: Vec<Listed>,
    runs: Vec<Run>,
}

/// A body of sound groups, some of them replaced at once.
fn case(dice: &mut Dice) -> Case {
    let mut case = Case {
        before: Vec::new(),
        after: Vec::new(),
        stood: Vec::new(),
        standing: Vec::new(),
        runs: Vec::new(),
    };
    let share = dice.pick(&[20, 50, 80]);
    let (mut replaced, mut old, mut new) = (false, 0, 0);
    for _ in 0..dice.between(1, 9) {
        let group = group(dice);
        let place = case.before.len();
        case.stood.push((place, group.len(), 0));
        case.before.extend(&group);
        let neighbour = replaced;
        replaced = dice.percent(share);
        if replaced {
            let bytes = new_bytes(dice, &group);
            old += group.len();
            new += bytes.len();
            if !neighbour {
                let start = case.after.len();
                let new = Vec::new();
                case.runs.push(Run { start, new });
            }
            case.after.extend(&bytes);
            case.runs.last_mut().unwrap().new.push(bytes);
        } else {
            // "every later group, moved by the change in length"
            case.standing.push((place + new - old, group.len(), 0));
            case.after.extend(&group);
        }
    }
    case
}

/// "No CSEG begun before the new bytes is completed by them": one that is.
fn completed(after: &[u8], run: &Run) -> bool {
    let end = run.start + run.new.concat().len();
    csegs(after)
        .iter()
        .any(|&place| place < run.start && run.start < place + 4 && place + 4 <= end)
}

/// What new bytes alone would list, "moved to where they stand".
fn moved(bytes: &[u8], start: usize) -> Vec<Listed> {
    list(bytes)
        .iter()
        .map(|&(place, length, kind)| (place + start, length, kind))
        .collect()
}

/// Every group that stands as its own entry, and of each run what its new bytes alone, taken
/// together, would list.
fn expected(case: &Case) -> Vec<Listed> {
    let mut entries = case.standing.clone();
    for run in &case.runs {
        entries.extend(moved(&run.new.concat(), run.start));
    }
    entries.sort_unstable();
    entries
}

/// The entries where each neighbour's new bytes would be listed by themselves.
fn each_by_itself(case: &Case) -> Vec<Listed> {
    let mut entries = case.standing.clone();
    for run in &case.runs {
        let mut start = run.start;
        for new in &run.new {
            entries.extend(moved(new, start));
            start += new.len();
        }
    }
    entries.sort_unstable();
    entries
}

fn ends_with_first_letters(bytes: &[u8]) -> bool {
    (1..4).any(|count| bytes.ends_with(&b"CSEG"[..count]))
}

fn begins_with_last_letters(bytes: &[u8]) -> bool {
    (1..4).any(|count| bytes.starts_with(&b"CSEG"[count..]))
}

#[test]
fn damage_stays_local_for_any_choice_of_groups() {
    let mut dice = Dice::new(41);
    let mut seen: BTreeMap<&str, usize> = BTreeMap::new();
    for _ in 0..12_000 {
        let case = case(&mut dice);
        let (after, runs) = (&case.after, &case.runs);
        assert!(case.before.len() <= 32_768 && after.len() <= 32_768);
        let starts: Vec<usize> = case.stood.iter().map(|entry| entry.0).collect();
        assert_eq!(csegs(&case.before), starts);
        assert_eq!(list(&case.before), case.stood);
        let mut count = |what, is| *seen.entry(what).or_default() += usize::from(is);
        let spoilt: Vec<bool> = runs.iter().map(|run| completed(after, run)).collect();
        if spoilt.contains(&true) {
            let later = !spoilt[0];
            count("not taken: completed at the first run", spoilt[0]);
            count("not taken: completed at a later run alone", later);
            let differs = list(after) != expected(&case);
            count("not taken: a later run's group is lost", later && differs);
            continue;
        }
        assert_eq!(list(after), expected(&case));
        let new: Vec<Vec<u8>> = runs.iter().map(|run| run.new.concat()).collect();
        let behind = |run: usize| runs[run].start + new[run].len() < after.len();
        let all = 0..runs.len();
        count("taken", true);
        count("no group replaced", runs.is_empty());
        count(
            "standing groups of both editions",
            both(after, &case.standing),
        );
        count(
            "both editions, one of them in new bytes alone",
            both(after, &list(after)) && !both(after, &case.standing),
        );
        count("one run", runs.len() == 1);
        count("two runs", runs.len() == 2);
        count("three runs or more", runs.len() > 2);
        count("every group replaced", case.standing.is_empty());
        count("neighbours", runs.iter().any(|run| run.new.len() > 1));
        count("longer", after.len() > case.before.len());
        count("shorter", after.len() < case.before.len());
        count(
            "as long",
            after.len() == case.before.len() && !runs.is_empty(),
        );
        count(
            "nothing in place of a run between groups",
            all.clone()
                .any(|run| new[run].is_empty() && runs[run].start > 0 && behind(run)),
        );
        count(
            "a run that ends with first letters of CSEG before a group",
            all.clone()
                .any(|run| ends_with_first_letters(&new[run]) && behind(run)),
        );
        count(
            "a run that begins with last letters of CSEG behind a group",
            all.clone()
                .any(|run| begins_with_last_letters(&new[run]) && runs[run].start > 0),
        );
        count(
            "a later run behind a group that ends with first letters of CSEG",
            runs.iter()
                .skip(1)
                .any(|run| ends_with_first_letters(&after[..run.start])),
        );
        count(
            "CSEG in the middle of new bytes",
            new.iter()
                .any(|bytes| csegs(bytes).iter().any(|&place| place > 0)),
        );
        count(
            "neighbours whose bytes list otherwise by themselves",
            each_by_itself(&case) != expected(&case),
        );
    }
    assert_eq!(seen.len(), 21);
    assert!(seen.values().all(|&count| count > 50), "{seen:#?}");
    assert!(seen["taken"] > 8_000, "{seen:#?}");
}

/// The bytes of each entry list that entry alone; counted by what they are, bytes before the first
/// CSEG, bytes behind a group or a piece from its CSEG on, and by their kind.
fn each_alone(body: &[u8], sorts: &mut BTreeMap<(&str, u8), usize>) {
    let entries = list(body);
    for (number, &(place, length, kind)) in entries.iter().enumerate() {
        let alone = &body[place..place + length];
        assert_eq!(list(alone), [(0, length, kind)]);
        let sort = if alone.starts_with(b"CSEG") {
            "piece"
        } else if number == 0 {
            "before the first CSEG"
        } else {
            "behind a group"
        };
        *sorts.entry((sort, kind)).or_default() += 1;
    }
}

#[test]
fn the_bytes_of_each_entry_list_that_entry_alone() {
    let mut sorts = BTreeMap::new();
    let mut dice = Dice::new(42);
    for _ in 0..3_000 {
        each_alone(&case(&mut dice).after, &mut sorts);
    }
    for line in Script::new(43, &["salvage"]).take(4_000) {
        let body = tokens(&line).and_then(|parts| bytes(parts.get(1)?));
        if let Some(body) = body.filter(|body| body.len() <= 32_768) {
            each_alone(&body, &mut sorts);
        }
    }
    let pieces = [0, 2, 6, 7, 8, 9, 10, 11].map(|kind| ("piece", kind));
    let loose = [("before the first CSEG", 6), ("behind a group", 6)];
    for sort in pieces.iter().chain(&loose) {
        assert!(sorts.get(sort).is_some_and(|&count| count > 5), "{sort:?}");
    }
    assert!(sorts.keys().all(|sort| sort.0 == "piece" || sort.1 == 6));
}
