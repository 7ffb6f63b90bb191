//! Wrong readings of an edit inside a style file: a script of the length that is compared tells each
//! of them from the right one, which is worked out here once more and is what `editfile` answers.
//!
//! Not among them: a byte 26 of a Ctab that stays as it was, since it is 00 wherever a body can be
//! read, and a lock by another value than 01, which no such body has.

mod common;

use common::file_edits::{file_edits, FileEdit, Group, Standing};
use common::readings::readings;
use second::edition::Edition;
use second::ranges::first_out_of_range;
use second::record::{first_bad_byte, Record};

readings! {
    READINGS: 40 [
        FindingNotAsked
        CasmByLetters
        BodyPlaceInBody
        BodyPlaceFromTag
        BodyPlaceBehindTagOnly
        BodyPlaceZero
        BodyNotAsked
        PartIsAText
        PartIsAFirstName
        PartIsAStart
        PartOfAnyCase
        PartIsLastGroupElse
        NoPartIsSixteen
        NoPartBehindSource
        NoPartPlaceOfBody
        ChannelOfAnyGroup
        ChannelIsNumber
        NoChannelIsSixteen
        NoChannelBehindSource
        NoChannelPlaceOfBody
        SourceNotAsked
        SourceWritten
        SourceIsFifteen
        EditionBeforeSource
        EditionNotAsked
        LockBeforeSource
        LockBeforeEdition
        LockBehindRange
        LockOfTheNew
        LockPlaceInFile
        LockNeverOverridden
        LockNotAsked
        LockStays
        RangeNotAsked
        RangePlaceInFile
        RangeBeforeEdition
        RangeOfTheCntt
        RefusedButWritten
        WrittenInTheBody
        CnttWritten
    ]
}

use Reading::*;

/// A refusal's number and place.
type No = (u8, usize);

fn group_of(line: &FileEdit, reading: Reading) -> Option<&Group> {
    let part = &line.part;
    let has = |group: &&Group| match reading {
        PartIsAText => group.names.join(&b","[..]) == *part,
        PartIsAFirstName => group.names[0] == *part,
        PartIsAStart => group.names.iter().any(|name| name.starts_with(part)),
        PartOfAnyCase => group
            .names
            .iter()
            .any(|name| name.eq_ignore_ascii_case(part)),
        _ => group.names.contains(part),
    };
    let found = line.groups.iter().find(has);
    match reading {
        PartIsLastGroupElse => found.or(line.groups.last()),
        _ => found,
    }
}

fn record_of<'a>(line: &'a FileEdit, group: &'a Group, reading: Reading) -> Option<&'a Standing> {
    let of = |group: &'a Group| {
        let mut records = group.records.iter();
        records.find(|record| record.bytes[0] == line.channel)
    };
    match reading {
        ChannelOfAnyGroup => line.groups.iter().find_map(of),
        ChannelIsNumber => group.records.get(usize::from(line.channel)),
        _ => of(group),
    }
}

/// The refusals behind the record, in the order of the reading.
fn behind_the_record(line: &FileEdit, old: &Standing, reading: Reading) -> Option<No> {
    let new = &line.new;
    let second = old.bytes.len() == 47;
    let bad = match reading {
        RangeOfTheCntt => first_bad_byte(new),
        _ => first_out_of_range(new.edition(), new.bytes()),
    };
    let locked = match reading {
        LockOfTheNew => new[10] == 1,
        _ => old.bytes[10] == 1,
    };
    let kept = match reading {
        LockNeverOverridden => locked,
        LockNotAsked => false,
        _ => locked && !line.over,
    };
    let number = if reading == SourceIsFifteen { 15 } else { 16 };
    let moved = new[0] != line.channel;
    let source =
        (moved && !matches!(reading, SourceNotAsked | SourceWritten)).then_some((number, 0));
    let unlike = second != (new.edition() == Edition::Second);
    let unlike = (unlike && reading != EditionNotAsked).then_some((21, 0));
    let lock = kept.then_some(match reading {
        LockPlaceInFile => (22, old.place + 10),
        _ => (22, 10),
    });
    let range = bad
        .filter(|_| reading != RangeNotAsked)
        .map(|index| match reading {
            RangePlaceInFile => (9, old.place + index),
            _ => (9, index),
        });
    let order = match reading {
        EditionBeforeSource => [unlike, source, lock, range],
        LockBeforeSource => [lock, source, unlike, range],
        LockBeforeEdition => [source, lock, unlike, range],
        LockBehindRange => [source, unlike, range, lock],
        RangeBeforeEdition => [source, range, unlike, lock],
        _ => [source, unlike, lock, range],
    };
    order.into_iter().flatten().next()
}

/// The file with the record in it, as far as it has bytes there.
fn written(line: &FileEdit, old: &Standing, reading: Reading) -> Vec<u8> {
    let mut file = line.file.clone();
    let place = match reading {
        WrittenInTheBody => old.place - line.start,
        _ => old.place,
    };
    let mut bytes = line.new.bytes().to_vec();
    bytes.resize(old.bytes.len(), 0);
    match reading {
        LockStays => bytes[10] = old.bytes[10],
        SourceNotAsked => bytes[0] = old.bytes[0],
        _ => (),
    }
    file[place..place + bytes.len()].copy_from_slice(&bytes);
    if let (CnttWritten, Record::First(first)) = (reading, &line.new) {
        let own = [&b"Cntt\0\0\0\x02"[..], &[line.channel]].concat();
        let behind = &line.file[old.place..];
        let found = behind.windows(9).position(|nine| nine == own);
        if let (Some(place), Some(value)) = (found, first.second_table) {
            file[old.place + place + 9] = value;
        }
    }
    file
}

/// The place of the body by the first letters CASM behind the head.
fn casm_by_letters(file: &[u8]) -> Option<usize> {
    let found = file[22..].windows(4).position(|four| four == b"CASM");
    found.map(|place| place + 30)
}

/// The answer by a reading, and the file after it.
fn by(line: &FileEdit, reading: Reading) -> (String, Vec<u8>) {
    let refused = |(number, place): No| (format!("refused {number} {place}"), line.file.clone());
    match (reading, line.not_found) {
        (FindingNotAsked, Some(_)) => return refused((15, 0)),
        (_, Some(not_found)) => return refused((not_found.number, not_found.place)),
        _ => (),
    }
    if reading == CasmByLetters && casm_by_letters(&line.file) != Some(line.start) {
        return refused((6, line.start));
    }
    if let Some(unread) = line.unread {
        let place = match reading {
            BodyPlaceInBody => unread.place,
            BodyPlaceFromTag => line.start - 8 + unread.place,
            BodyPlaceBehindTagOnly => line.start - 4 + unread.place,
            BodyPlaceZero => 0,
            BodyNotAsked => return refused((15, 0)),
            _ => line.start + unread.place,
        };
        return refused((unread.number, place));
    }
    let moved = line.new[0] != line.channel;
    let Some(group) = group_of(line, reading) else {
        return refused(match reading {
            NoPartIsSixteen => (16, 0),
            NoPartBehindSource if moved => (16, 0),
            NoPartPlaceOfBody => (15, line.start),
            _ => (15, 0),
        });
    };
    let Some(old) = record_of(line, group, reading) else {
        return refused(match reading {
            NoChannelIsSixteen => (16, 0),
            NoChannelBehindSource if moved => (16, 0),
            NoChannelPlaceOfBody => (15, line.start),
            _ => (15, 0),
        });
    };
    match behind_the_record(line, old, reading) {
        Some(no) if reading == RefusedButWritten && no.0 == 9 => {
            (refused(no).0, written(line, old, reading))
        }
        Some(no) => refused(no),
        None => ("ok".to_string(), written(line, old, reading)),
    }
}

#[test]
fn wrong_readings_are_told_apart() {
    let lines = file_edits(141, 20_000);
    let told = |line: &FileEdit, reading: Reading| {
        let (told, after) = by(line, reading);
        told == line.told && after == line.after
    };
    assert!(lines.iter().all(|line| told(line, Right)));
    let counts: Vec<(Reading, usize)> = READINGS
        .into_iter()
        .map(|reading| {
            (
                reading,
                lines.iter().filter(|line| !told(line, reading)).count(),
            )
        })
        .collect();
    assert!(counts.iter().all(|(_, lines)| *lines > 2), "{counts:?}");
}
