//! The lines of a check (document 02, §13), of two bodies or of two style files, and what the tests
//! of both verbs tell of them.

use super::answered::answered;
use super::chunks::{edition, groups, records, Chunk};
use super::reached::holding;
use second::body::read_body;
use second::refusal::Refusal;
use second::script::{bytes, number};
use second::style::find;
use std::collections::BTreeSet;
use std::ops::Range;

/// Lent bytes: a body, or a file and where its body stands in it, as far as that is found; and the
/// refusals of the finding and of the body, this one's place counted from the body.
pub struct Lent {
    pub bytes: Vec<u8>,
    pub not_found: Option<Refusal>,
    pub body: Range<usize>,
    pub unread: Option<Refusal>,
}

impl Lent {
    fn new(bytes: Vec<u8>, is_file: bool) -> Lent {
        let (not_found, body) = match is_file.then(|| find(&bytes)) {
            None => (None, 0..bytes.len()),
            Some(Err(refusal)) => (Some(refusal), 0..0),
            Some(Ok(found)) => {
                let start = found.tag_place + 8;
                (None, start..start + found.body_length)
            }
        };
        let unread = match not_found {
            Some(_) => None,
            None => read_body(&bytes[body.clone()]).err(),
        };
        Lent {
            bytes,
            not_found,
            body,
            unread,
        }
    }

    pub fn body(&self) -> &[u8] {
        &self.bytes[self.body.clone()]
    }

    pub fn can_be_read(&self) -> bool {
        self.not_found.is_none() && self.unread.is_none()
    }
}

/// A line that keeps the grammar, and the words of its answer.
pub struct Check {
    pub before: Lent,
    pub after: Lent,
    pub group: usize,
    pub channel: u8,
    pub told: Vec<String>,
}

/// The checks of a script of `checked` or of `checkedfile`.
pub fn checks(verb: &'static str, seed: u64, count: usize) -> Vec<Check> {
    let lent = |part: &[u8]| Lent::new(bytes(part).unwrap(), verb == "checkedfile");
    let lines = answered(verb, seed, count).into_iter();
    lines
        .map(|(parts, told)| Check {
            before: lent(&parts[1]),
            after: lent(&parts[2]),
            group: number(&parts[3]).unwrap() as usize,
            channel: number(&parts[4]).unwrap() as u8,
            told,
        })
        .collect()
}

/// Tells the kinds of a refusal.
type Refused = fn(&Check) -> Vec<String>;

/// Tells the kinds of an answer, given where the record stands in the before bytes.
type Answered = fn(&Check, &Range<usize>) -> Vec<String>;

impl Check {
    /// The number of a refusal and what it names.
    pub fn refusal(&self) -> String {
        format!("{} {}", self.told[1], self.told[3])
    }

    /// The place of a no.
    pub fn no(&self) -> Option<usize> {
        self.told.get(2).map(|place| place.parse().unwrap())
    }

    /// How long the before bytes and the after bytes are.
    pub fn lengths(&self) -> [usize; 2] {
        [self.before.bytes.len(), self.after.bytes.len()]
    }

    /// Whether lent bytes have the group, how many records that has, and whether the channel; where
    /// they cannot be read they have nothing.
    pub fn has(&self, lent: &Lent) -> (bool, usize, bool) {
        let all = match lent.can_be_read() {
            true => groups(lent.body()),
            false => Vec::new(),
        };
        let Some((_, children)) = all.get(self.group) else {
            return (false, 0, false);
        };
        let found = records(children);
        let there = found.iter().any(|chunk| chunk.payload[0] == self.channel);
        (true, found.len(), there)
    }

    /// The edition of the record that an answer is about, and where it stands in the before bytes.
    fn record(&self) -> (usize, Range<usize>) {
        let all = groups(self.before.body());
        let children = &all[self.group].1;
        let found = records(children);
        let chunk = found.iter().find(|chunk| chunk.payload[0] == self.channel);
        let (chunk, start) = (chunk.unwrap(), self.before.body.start);
        let record = start + chunk.place + 8..start + chunk.end();
        (edition(children), record)
    }

    /// Whether the bytes at the record are other ones.
    fn is_edited(&self, record: &Range<usize>) -> bool {
        let [own, new] = [&self.before, &self.after].map(|lent| lent.bytes.get(record.clone()));
        own != new
    }

    /// Whether the record is edited, in a word.
    pub fn change(&self, record: &Range<usize>) -> &'static str {
        match self.is_edited(record) {
            true => "edited",
            false => "unchanged",
        }
    }

    /// Each unlike byte of a record that may change, and the lock.
    fn yes_kinds(&self, record: &Range<usize>) -> Vec<String> {
        let [own, new] = [&self.before, &self.after].map(|lent| &lent.bytes[record.clone()]);
        let unlike = (0..own.len()).filter(|&index| own[index] != new[index]);
        let mut kinds: Vec<String> = unlike.map(|index| format!("byte {index}")).collect();
        let change = self.change(record);
        kinds.push(change.to_string());
        kinds.push(format!("{change}, byte 10 is {}", own[10]));
        kinds
    }

    /// How the place of a no stands to the record and to the ends.
    fn no_kinds(&self, record: &Range<usize>, place: usize) -> Vec<String> {
        let [before, after] = self.lengths();
        let header = record.start - 8..record.start;
        holding([
            ("its own tag", header.contains(&place)),
            ("just behind it", place == record.end),
            ("the last byte", place + 1 == before && before == after),
            ("no byte before", place == before),
            ("no byte after", place == after),
            ("inside too", self.is_edited(record) && before == after),
        ])
    }

    /// The kinds of an answer, those of both verbs and of its own, behind the edition and yes or no.
    fn answered_kinds(&self, answered: Answered) -> Vec<String> {
        let (edition, record) = self.record();
        let mut kinds = match self.no() {
            None => self.yes_kinds(&record),
            Some(place) => self.no_kinds(&record, place),
        };
        kinds.extend(answered(self, &record));
        kinds
            .iter()
            .map(|kind| format!("{edition}: {}, {kind}", self.told[1]))
            .collect()
    }
}

/// The kinds of the lines of a verb, which tells those of its refusals and its own of the answers.
pub fn kinds(
    lines: &[Check],
    refused: Refused,
    answered: Answered,
) -> impl Iterator<Item = String> + '_ {
    let kinds = move |check: &Check| match check.told[0].as_str() {
        "refused" => refused(check),
        _ => check.answered_kinds(answered),
    };
    lines.iter().flat_map(kinds)
}

/// In which part of a chunk a place stands.
pub fn stands_in_chunk(chunk: &Chunk, what: &str, place: usize) -> String {
    match place - chunk.place {
        0..=3 => format!("the tag of {what}"),
        4..=7 => format!("the length of {what}"),
        _ => what.to_string(),
    }
}

/// In what of a readable body a place stands.
pub fn stands_in_body(body: &[u8], place: usize) -> String {
    let within = |chunk: &Chunk| chunk.place <= place && place < chunk.end();
    let all = groups(body);
    let Some((group, children)) = all.iter().find(|(group, _)| within(group)) else {
        return "behind the body".to_string();
    };
    let Some(child) = children.iter().find(|child| within(child)) else {
        return stands_in_chunk(group, "a group", place);
    };
    let what = match child.tag {
        b"Sdec" => "a name",
        b"Cntt" => "a Cntt",
        _ => "a record",
    };
    stands_in_chunk(child, what, place)
}

/// The kinds of answers in each edition, with a change of every byte of the record, and with a Cntt
/// of the first.
pub fn of_editions(answered: &[&str]) -> BTreeSet<String> {
    let mut kinds = BTreeSet::from(["1: no, a Cntt".to_string()]);
    for (edition, last) in [(1, 25), (2, 46)] {
        kinds.extend(answered.iter().map(|kind| format!("{edition}: {kind}")));
        kinds.extend((0..=last).map(|index| format!("{edition}: yes, byte {index}")));
    }
    kinds
}

/// These refusals of either body, and 16 and 15, with what they name.
pub fn refusals_of_bodies(numbers: &[u8]) -> BTreeSet<String> {
    let mut all = BTreeSet::from(["15 before".to_string(), "16 before".to_string()]);
    for which in ["before", "after"] {
        all.extend(numbers.iter().map(|number| format!("{number} {which}")));
    }
    all
}

/// The refusals among the answers, with what they name.
pub fn refusals_told(lines: &[Check]) -> BTreeSet<String> {
    let refused = lines.iter().filter(|check| check.told[0] == "refused");
    refused.map(Check::refusal).collect()
}
