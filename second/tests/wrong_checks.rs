//! Wrong readings of a check (document 02, §13), of two bodies and of two style files: a script of
//! the length that is compared tells each of them from the right one, which is worked out here once
//! more and is what `checked` and `checkedfile` answer.
//!
//! Not among them are readings that no line can tell: a record that begins up to five bytes earlier
//! (where only these of its header differ, one of the two cannot be read), a Ctab's record without
//! its byte 26, and the record at the after file's CASM (where that stands elsewhere, an earlier
//! place is unlike).

mod common;

use common::checks::{checks, Check, Lent};
use common::chunks::{chunks, groups, of_tag, records};
use common::readings::readings;
use second::refusal::Refusal;
use std::ops::Range;

readings! {
    OF_BOTH: 26 [
        RecordCompared
        RecordByte0Compared
        LockedRecordCompared
        RecordOneLonger
        RecordOneShorter
        RecordWithItsHeader
        RecordWithItsCntt
        AlwaysCtabSize
        AlwaysCtb2Size
        RecordOfAfter
        ChannelOfAnyGroup
        GroupsFromOne
        NumberInsteadOfChannel
        AfterNotRead
        LengthsOnly
        LengthsNotCompared
        LengthsFirst
        LastByteNotCompared
        LastPlaceInstead
        AlwaysYes
        SixteenBeforeAfter
        FifteenBeforeSixteen
        FifteenInAfter
        AfterBeforeBefore
        BodiesSwapped
        SixteenNamesAfter
    ]
    OF_FILES: 19 [
        AfterFileNotFound
        AfterFileFirst
        BodyBeforeAfterFile
        FilesSwapped
        FindingNamesBody
        PlaceFromBody
        RecordPlaceFromBody
        BeforeRefusalFromBody
        AfterRefusalFromBody
        AfterRefusalByBefore
        PlaceBehindTagOnly
        SixteenMoved
        SectionsInAnyOrder
        BehindCasmNotCompared
        InFrontNotCompared
        HeadNotCompared
        TrackNotCompared
        CasmPlaceNotCompared
        GreatBodyIsBodys
    ]
}

use Reading::*;

/// A line, the places at which its bytes are unlike, and what was answered.
struct Line {
    check: Check,
    unlike: Vec<usize>,
    told: String,
}

fn lines(verb: &'static str, seed: u64) -> Vec<Line> {
    let line = |check: Check| {
        let [before, after] = [&check.before, &check.after].map(|lent| &lent.bytes);
        let longer = before.len().max(after.len());
        let differ = |place: &usize| before.get(*place) != after.get(*place);
        Line {
            unlike: (0..longer).filter(differ).collect(),
            told: check.told.join(" "),
            check,
        }
    };
    checks(verb, seed, 20_000).into_iter().map(line).collect()
}

/// The record asked for in a body, or 16 or 15.
fn asked_record(body: &[u8], check: &Check, reading: Reading) -> Result<Range<usize>, u8> {
    let all = groups(body);
    let number = match reading {
        GroupsFromOne => check.group.checked_sub(1).ok_or(16)?,
        _ => check.group,
    };
    let (_, children) = all.get(number).ok_or(16)?;
    let found = match reading {
        ChannelOfAnyGroup => all.iter().flat_map(|(_, all)| records(all)).collect(),
        _ => records(children),
    };
    let chunk = match reading {
        NumberInsteadOfChannel => found.get(usize::from(check.channel)),
        _ => found.iter().find(|chunk| chunk.payload[0] == check.channel),
    };
    let chunk = chunk.ok_or(15)?;
    let start = chunk.place + 8;
    Ok(match reading {
        RecordOneLonger => start..chunk.end() + 1,
        RecordOneShorter => start..chunk.end() - 1,
        RecordWithItsHeader => chunk.place..chunk.end(),
        AlwaysCtabSize => start..start + 27,
        AlwaysCtb2Size => start..start + 47,
        RecordCompared => start..start,
        RecordByte0Compared => start + 1..chunk.end(),
        LockedRecordCompared if chunk.payload[10] == 1 => start..start,
        _ => start..chunk.end(),
    })
}

/// The Cntt of the channel, where the reading lets it change too.
fn asked_cntt(body: &[u8], check: &Check, reading: Reading) -> Range<usize> {
    let all = groups(body);
    let children = match all.get(check.group) {
        Some((_, children)) if reading == RecordWithItsCntt => children,
        _ => return 0..0,
    };
    let found = of_tag(children, b"Cntt");
    let own = found.iter().find(|chunk| chunk.payload[0] == check.channel);
    own.map_or(0..0, |chunk| chunk.place + 8..chunk.end())
}

/// A refusal as it is told: number, place and which.
type Told = (u8, usize, &'static str);

impl Line {
    /// The refusals of both findings, of both bodies, 16 and 15, each if it holds.
    fn refusals(&self, reading: Reading) -> [Option<Told>; 6] {
        let (before, after) = (&self.check.before, &self.check.after);
        let [before_file, after_file, of_before, of_after] = match reading {
            BodiesSwapped => ["beforefile", "afterfile", "after", "before"],
            FilesSwapped => ["afterfile", "beforefile", "before", "after"],
            FindingNamesBody => ["before", "after", "before", "after"],
            _ => ["beforefile", "afterfile", "before", "after"],
        };
        let finding = |lent: &Lent, file, body| {
            let Refusal { number, place } = lent.not_found?;
            let great = reading == GreatBodyIsBodys && number == 3 && place > 0;
            let which = if great { body } else { file };
            Some((number, place, which))
        };
        let start = |lent: &Lent, reading| match reading {
            PlaceBehindTagOnly => lent.body.start.saturating_sub(4),
            _ => lent.body.start,
        };
        let reads = |lent: &Lent, by: usize, which| {
            let refusal = lent.unread?;
            Some((refusal.number, by + refusal.place, which))
        };
        let by_before = match reading {
            BeforeRefusalFromBody => 0,
            _ => start(before, reading),
        };
        let by_after = match reading {
            AfterRefusalFromBody => 0,
            AfterRefusalByBefore => before.body.start,
            _ => start(after, reading),
        };
        let [sixteen, fifteen] = self.not_there(reading);
        [
            finding(before, before_file, of_before),
            finding(after, after_file, of_after),
            reads(before, by_before, of_before),
            reads(after, by_after, of_after),
            sixteen,
            fifteen,
        ]
    }

    /// 16 and 15, each if it holds by itself.
    fn not_there(&self, reading: Reading) -> [Option<Told>; 2] {
        let (before, after) = (&self.check.before, &self.check.after);
        let in_after = matches!(reading, RecordOfAfter | FifteenInAfter);
        let lent = match in_after && after.can_be_read() {
            true => after,
            false => before,
        };
        if !lent.can_be_read() {
            return [None, None];
        }
        let which = match reading {
            SixteenNamesAfter => "after",
            _ => "before",
        };
        let place = match reading {
            SixteenMoved => lent.body.start,
            _ => 0,
        };
        match asked_record(lent.body(), &self.check, reading) {
            Err(16) => [Some((16, place, which)), Some((15, place, which))],
            Err(number) => [None, Some((number, place, which))],
            Ok(_) => [None, None],
        }
    }

    /// What a reading answers.
    fn by(&self, reading: Reading) -> String {
        let refusals = self.refusals(reading);
        let order: &[usize] = match reading {
            AfterNotRead => &[0, 1, 2, 4, 5],
            SixteenBeforeAfter => &[0, 1, 2, 4, 3, 5],
            FifteenBeforeSixteen => &[0, 1, 2, 3, 5, 4],
            AfterBeforeBefore => &[0, 1, 3, 2, 4, 5],
            AfterFileNotFound => &[0, 2, 3, 4, 5],
            AfterFileFirst => &[1, 0, 2, 3, 4, 5],
            BodyBeforeAfterFile => &[0, 2, 1, 3, 4, 5],
            _ => &[0, 1, 2, 3, 4, 5],
        };
        if let Some((number, place, which)) = order.iter().find_map(|&number| refusals[number]) {
            return format!("refused {number} {place} {which}");
        }
        match self.unlike(reading) {
            None => "ok yes".to_string(),
            Some(place) => format!("ok no {place}"),
        }
    }

    /// Whether heads, tracks and the sections by their tags are the same, and the bodies but for the
    /// record.
    fn same_sections(&self) -> bool {
        let (before, after) = (&self.check.before, &self.check.after);
        let record = asked_record(before.body(), &self.check, Right).unwrap_or(0..0);
        let sorted = |lent: &Lent| {
            let file = &lent.bytes;
            let mut all: Vec<(Vec<u8>, Vec<u8>)> = chunks(file, 0, file.len())
                .iter()
                .map(|chunk| (chunk.tag.to_vec(), chunk.payload.to_vec()))
                .collect();
            for (_, body) in all[2..].iter_mut().filter(|(tag, _)| tag == b"CASM") {
                let end = record.end.min(body.len());
                body[record.start.min(end)..end].fill(0);
            }
            all[2..].sort();
            all
        };
        after.can_be_read() && sorted(before) == sorted(after)
    }

    /// Places that a reading does not compare: the record, its Cntt where it may change, and others.
    fn left_out(&self, reading: Reading) -> [Range<usize>; 3] {
        let (before, after) = (&self.check.before, &self.check.after);
        let of = match reading {
            RecordOfAfter if after.can_be_read() => after,
            _ => before,
        };
        let by = match reading {
            RecordPlaceFromBody => 0,
            PlaceBehindTagOnly => of.body.start.saturating_sub(4),
            _ => of.body.start,
        };
        let record = asked_record(of.body(), &self.check, reading).unwrap_or(0..0);
        let cntt = asked_cntt(of.body(), &self.check, reading);
        let elsewhere = match reading {
            BehindCasmNotCompared => before.body.end..usize::MAX,
            InFrontNotCompared => 0..before.body.start - 8,
            HeadNotCompared => 8..14,
            TrackNotCompared => 22..chunks(&before.bytes, 14, 15)[0].end(),
            CasmPlaceNotCompared => before.body.start - 8..before.body.start,
            LastByteNotCompared => before.bytes.len() - 1..before.bytes.len(),
            _ => 0..0,
        };
        [
            by + record.start..by + record.end,
            by + cntt.start..by + cntt.end,
            elsewhere,
        ]
    }

    /// The place of a no, if it is one, where nothing is refused.
    fn unlike(&self, reading: Reading) -> Option<usize> {
        if !self.check.before.can_be_read() {
            return None;
        }
        let [before, after] = self.check.lengths();
        let (shorter, longer) = (before.min(after), before.max(after));
        let left_out = self.left_out(reading);
        let compared = |place: &usize| !left_out.iter().any(|range| range.contains(place));
        let mut places = self.unlike.iter().copied().filter(compared);
        match reading {
            AlwaysYes => None,
            SectionsInAnyOrder if self.same_sections() => None,
            LengthsOnly => (shorter != longer).then_some(shorter),
            LengthsNotCompared => places.find(|&place| place < shorter),
            LengthsFirst if shorter != longer => Some(shorter),
            LastPlaceInstead => places.next_back(),
            PlaceFromBody => places
                .next()
                .map(|place| place.wrapping_sub(self.check.before.body.start)),
            _ => places.next(),
        }
    }
}

/// How many lines tell each wrong reading from what was answered, which is the right one's on every
/// line; those of great files are left out then.
fn told_apart(mut lines: Vec<Line>, wrong: &[&[Reading]]) -> Vec<(Reading, usize)> {
    for line in &lines {
        assert_eq!(line.by(Right), line.told);
    }
    lines.retain(|line| line.check.lengths().iter().all(|&length| length < 50_000));
    let unlike = |reading: Reading| {
        let told = lines.iter().filter(|line| line.by(reading) != line.told);
        (reading, told.count())
    };
    wrong.concat().into_iter().map(unlike).collect()
}

#[test]
fn wrong_readings_of_bodies_are_told_apart() {
    let counts = told_apart(lines("checked", 93), &[&OF_BOTH]);
    assert!(counts.iter().all(|(_, lines)| *lines > 10), "{counts:?}");
}

#[test]
fn wrong_readings_of_files_are_told_apart() {
    let counts = told_apart(lines("checkedfile", 94), &[&OF_BOTH, &OF_FILES]);
    assert!(counts.iter().all(|(_, lines)| *lines > 10), "{counts:?}");
}
