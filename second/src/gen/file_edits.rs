//! The catalogue of editfile: sound edits in files of each shape, locks, each refusal where it meets
//! the next, parts that are there or not, every byte at the bounds of its range, and great files.

use crate::body::read_body;
use crate::bytes::{Tag, CASM, CSEG};
use crate::edition::Edition;
use crate::gen::asks::NO_CHANNEL;
use crate::gen::bodies::{longest_sound, many, named};
use crate::gen::checks::BOTH;
use crate::gen::chords::NO_PART;
use crate::gen::cntts::{at_position, with_cntt};
use crate::gen::ctb2::TABLE_BOUNDS;
use crate::gen::ctb2_bodies::{other, plain};
use crate::gen::dice::Dice;
use crate::gen::draft::StyleDraft;
use crate::gen::file_checks::{bad_bodies, small_body};
use crate::gen::file_drafts::{around, damaged, filled, some_file};
use crate::gen::in_turn;
use crate::gen::locks::{locked, new_records, sample, some_record, STANDING};
use crate::gen::positions::ANY_POSITION;
use crate::gen::spell::{rec, spell, Line};
use crate::group::Group;
use crate::ranges::{allowed, Allowed};
use crate::record::Record;
use crate::sdec::names;
use crate::style::{BODY_LIMIT, FILE_LIMIT};
use crate::write::group_bytes;

/// An edit with this override.
fn line(file: &[u8], part: &[u8], channel: u8, over: u8, new: &Record) -> Line {
    let (file, part) = (spell(file), spell(part));
    format!("editfile {file} {part} {channel} {over} {}", rec(new)).into()
}

pub fn editfile(dice: &mut Dice) -> Vec<Line> {
    let mut lists = vec![of_great_files(dice)];
    for edition in BOTH {
        lists.push(of_records(dice, edition));
        lists.push(of_parts(dice, edition));
        lists.push(of_findings(edition));
        lists.push(of_bad_bodies(edition));
        lists.push(of_meetings(edition));
        lists.push(of_values(edition));
        lists.push(of_cntts(dice, edition));
    }
    in_turn(lists)
}

/// The names of the groups of `locks::sample` by their number.
const NAMES: [&[&[u8]]; 3] = [&[b"Main A", b"Main B"], &[b"Ending A"], &[b"Fill In AA"]];

/// Every record of a body with locks, replaced by each kind of record, with override and without,
/// in files of every shape.
fn of_records(dice: &mut Dice, edition: Edition) -> Vec<Line> {
    let files = around(&sample(edition)).map(|file| file.bytes());
    let mut lines = Vec::new();
    for (group, channel, lock) in STANDING {
        for new in new_records(dice, edition, channel, lock) {
            for over in [0, 1] {
                let file = &files[lines.len() % 5 + dice.below(2)];
                let part = dice.pick(NAMES[group as usize]);
                lines.push(line(file, part, channel, over, &new));
            }
        }
    }
    lines
}

/// Parts that are there, by each of their names, in a group without records too, and parts that are
/// not; channels that are in another group only, and in none.
fn of_parts(dice: &mut Dice, edition: Edition) -> Vec<Line> {
    let files = around(&sample(edition)).map(|file| file.bytes());
    let mut lines = Vec::new();
    let parts = NAMES.iter().flat_map(|names| names.iter());
    for part in parts.copied().chain(NO_PART) {
        for channel in [4, 0, 9] {
            let new = some_record(dice, edition, channel);
            let file = &files[lines.len() % files.len()];
            lines.push(line(file, part, channel, 1, &new));
        }
        let channel = dice.pick(&NO_CHANNEL);
        let new = plain(edition, channel & 15);
        lines.push(line(&files[0], part, channel, 0, &new));
    }
    lines
}

/// A record that is refused for all that can be: another source channel, another edition, a byte out
/// of range and a lock of its own.
fn bad_record(edition: Edition, channel: u8) -> Record {
    let mut bad = locked(plain(other(edition), channel ^ 1));
    bad[9] = 0xFF;
    bad
}

/// Each refusal of a finding, with a part and a record that are sound and with ones that are not.
fn of_findings(edition: Edition) -> Vec<Line> {
    let files = around(&small_body(edition));
    let mut lines = Vec::new();
    for file in [&files[0], &files[3], &files[5]] {
        for bad in damaged(file) {
            lines.push(line(&bad, b"A", 5, 1, &plain(edition, 5)));
            lines.push(line(&bad, b"Z", 7, 0, &bad_record(edition, 5)));
        }
    }
    lines
}

/// Each refusal of a body, in files of every shape; loose bytes behind a bad one, so that the
/// finding is refused before.
fn of_bad_bodies(edition: Edition) -> Vec<Line> {
    let mut lines = Vec::new();
    for bad in bad_bodies(&small_body(edition), edition) {
        for file in around(&bad).map(|file| file.bytes()) {
            lines.push(line(&file, b"A", 5, 1, &plain(edition, 5)));
            lines.push(line(&file, b"Z", 7, 0, &bad_record(edition, 5)));
        }
        let loose = [around(&bad)[2].bytes(), b"x".to_vec()].concat();
        lines.push(line(&loose, b"A", 5, 1, &plain(edition, 5)));
    }
    lines
}

/// 15 for the part, 15 for the channel, 16, 21, 22 and 9, each with all that come behind it and with
/// some; a body without groups.
fn of_meetings(edition: Edition) -> Vec<Line> {
    let of = |channel: u8| {
        let mut out_of_range = plain(edition, channel);
        out_of_range[9] = 0xFF;
        [
            plain(edition, channel),
            out_of_range,
            plain(other(edition), channel),
            bad_record(edition, channel ^ 1),
            plain(edition, channel ^ 1),
            bad_record(edition, channel),
        ]
    };
    let sample = sample(edition);
    let mut lines = Vec::new();
    for (turn, part) in [&b"Main B"[..], b"Ending A", b"Fill In AA", b"Main"]
        .into_iter()
        .enumerate()
    {
        let file = around(&sample)[turn].bytes();
        for channel in [0, 4, 7] {
            for new in of(channel) {
                for over in [0, 1] {
                    lines.push(line(&file, part, channel, over, &new));
                }
            }
        }
        let empty = around(&[])[turn].bytes();
        lines.push(line(&empty, part, 4, 1, &plain(edition, 4)));
    }
    lines
}

/// Every byte of a record at the bounds of what may stand there and beside them.
fn of_values(edition: Edition) -> Vec<Line> {
    let files = around(&small_body(edition)).map(|file| file.bytes());
    let mut lines = Vec::new();
    for index in 1..edition.fields() {
        let values = match allowed(edition, index) {
            Allowed::Table => TABLE_BOUNDS.to_vec(),
            Allowed::Within(low, high) => {
                let mut values = vec![low, high];
                values.extend(low.checked_sub(1));
                values.extend(high.checked_add(1));
                values
            }
        };
        for value in values {
            let mut new = plain(edition, 2);
            new[index] = value;
            let file = &files[lines.len() % files.len()];
            lines.push(line(file, b"A", 2, 0, &new));
        }
    }
    lines
}

/// Any Cntt and any position given with the new record; in a group with Cntts and in one without.
fn of_cntts(dice: &mut Dice, edition: Edition) -> Vec<Line> {
    let file = around(&small_body(edition))[4].bytes();
    let mut lines = Vec::new();
    for position in ANY_POSITION {
        for second_table in [None, Some(0x84), Some(0x0A), Some(0xFF)] {
            for part in [b"A", b"C"] {
                let new = with_cntt(some_record(dice, edition, 5), second_table);
                lines.push(line(&file, part, 5, 1, &at_position(new, position)));
            }
        }
    }
    lines
}

/// Files at the limit and over it, a record behind place 65,535, bodies at their limit and over it,
/// and the longest sound body.
fn of_great_files(dice: &mut Dice) -> Vec<Line> {
    let small = small_body(Edition::First);
    let new = some_record(dice, Edition::First, 2);
    let mut lines = Vec::new();
    for length in [FILE_LIMIT, FILE_LIMIT + 1] {
        lines.push(line(&filled(&small, length), b"A", 2, 1, &new));
    }
    for edition in BOTH {
        let body = small_body(edition);
        let sections: [(Tag, &[u8]); 3] =
            [(*b"OTSc", &[0; 70_000]), (CASM, &body), (*b"FNRc", b"f")];
        let far = StyleDraft::new(b"", &sections).bytes();
        for (part, channel) in [(b"A", 2), (b"C", 5), (b"B", 5), (b"D", 5)] {
            let new = some_record(dice, edition, channel);
            lines.push(line(&far, part, channel, 1, &new));
        }
        let mut bad = far.clone();
        bad[70_030 + 8 + 16] = 0x1F;
        lines.push(line(&bad, b"A", 5, 1, &plain(edition, 5)));
        let last = [many(20), group_bytes(b"Z", &[plain(edition, 5)])].concat();
        let file = around(&last)[5].bytes();
        lines.push(line(&file, b"Z", 5, 0, &some_record(dice, edition, 5)));
    }
    for length in [BODY_LIMIT, BODY_LIMIT + 1] {
        for start in [&CSEG[..], &named("A")] {
            let mut body = start.to_vec();
            body.resize(length, 0);
            lines.push(line(&around(&body)[0].bytes(), b"A", 5, 1, &new));
        }
    }
    let longest = longest_sound(dice);
    let groups = read_body(&longest).unwrap_or_default();
    for group in groups.iter().filter(|group| !group.records.is_empty()) {
        let part = names(group.text).last().unwrap_or_default();
        let old = group.records[group.records.len() - 1].record;
        let new = some_record(dice, old.edition(), old.source_channel());
        lines.push(line(&around(&longest)[0].bytes(), part, new[0], 1, &new));
    }
    lines
}

/// A part of a group that has records, if there is one.
pub fn part_with_records(dice: &mut Dice, groups: &[Group]) -> Option<Vec<u8>> {
    let full = groups.iter().filter(|group| !group.records.is_empty());
    let parts: Vec<&[u8]> = full.flat_map(|group| names(group.text)).collect();
    (!parts.is_empty()).then(|| dice.pick(&parts).to_vec())
}

/// A style file around a body, now and then one whose finding is refused.
pub fn some_around(dice: &mut Dice, body: &[u8]) -> Vec<u8> {
    let file = some_file(dice, body);
    if dice.percent(95) {
        return file.bytes();
    }
    let mut list = damaged(&file);
    list.swap_remove(dice.below(list.len()))
}
