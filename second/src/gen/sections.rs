//! Lines on sections by the places of their tags: the true places in sound files and in damaged
//! ones, places between them, near the end and past it, and lengths that meet the end or pass it.

use crate::gen::asks::sample_of;
use crate::gen::checks::BOTH;
use crate::gen::ctb2_bodies::plain;
use crate::gen::dice::Dice;
use crate::gen::draft::{Chunk, StyleDraft};
use crate::gen::faults::GREAT_LENGTHS;
use crate::gen::file_drafts::{around, damaged, filled};
use crate::gen::spell::{body_line, spell_parts, Line};
use crate::site::beginnings;
use crate::style::{BODY_LIMIT, FILE_LIMIT};
use crate::write::group_bytes;

/// Places past the end of small files, some of every file.
const FAR: [usize; 8] = [
    65_536,
    1_048_576,
    1_048_577,
    0x7FFF_FFFF,
    0x8000_0000,
    0xFFFF_FFF0,
    0xFFFF_FFF8,
    0xFFFF_FFFF,
];

fn line(file: &[u8], at: usize) -> Line {
    body_line("section", file, &at.to_string())
}

pub fn section(dice: &mut Dice) -> Vec<Line> {
    let mut lists = vec![of_few_bytes(), of_lengths(), of_great_files()];
    for (edition, layout) in BOTH.into_iter().zip([2, 3]) {
        let body = sample_of(dice, edition);
        let files = around(&body);
        for (number, file) in files.iter().enumerate() {
            lists.push(of_tags(file));
            if number % 3 == 0 {
                lists.push(of_damage(dice, file));
            }
        }
        let small = around(&group_bytes(b"A", &[plain(edition, 4)]))[layout].bytes();
        lists.push((0..small.len() + 4).map(|at| line(&small, at)).collect());
        lists.push(of_cuts(&files[4]));
    }
    super::in_turn(lists)
}

/// Where MThd, MTrk and each section of a draft truly stand.
fn tags(file: &StyleDraft) -> Vec<usize> {
    let chunks = [&file.head, &file.track].into_iter().chain(&file.sections);
    let mut end = 0;
    let mut place = |chunk: &Chunk| {
        let start = end;
        end += chunk.size();
        start
    };
    chunks.map(&mut place).collect()
}

/// The tags of a sound file and what is near them; its last bytes, its end and what is past it.
fn of_tags(file: &StyleDraft) -> Vec<Line> {
    let bytes = file.bytes();
    let end = bytes.len();
    let mut places = tags(file);
    for tag in places.clone() {
        places.extend([tag + 1, tag + 4, tag + 8, tag.saturating_sub(1)]);
    }
    places.extend([end - 9, end - 8, end - 7, end - 1, end, end + 1, end + 8]);
    places.extend(FAR);
    places.iter().map(|&at| line(&bytes, at)).collect()
}

/// Files whose finding is refused, at places at which the sound one has tags and at others.
fn of_damage(dice: &mut Dice, file: &StyleDraft) -> Vec<Line> {
    let mut lines = Vec::new();
    for bytes in damaged(file) {
        lines.extend([0, 14].map(|at| line(&bytes, at)));
        lines.push(line(&bytes, dice.pick(&tags(file))));
        lines.push(line(&bytes, some_place(dice, &bytes)));
    }
    lines
}

/// A file cut in and behind every header and payload, asked for the section that is cut.
fn of_cuts(file: &StyleDraft) -> Vec<Line> {
    let bytes = file.bytes();
    let tags = tags(file);
    let mut lines = Vec::new();
    for (number, &tag) in tags.iter().enumerate() {
        let end = tags.get(number + 1).copied().unwrap_or(bytes.len());
        let mut lengths: Vec<usize> = (tag..tag + 10).collect();
        lengths.extend([end - 1, end, end + 1]);
        lengths.retain(|&length| length <= bytes.len());
        lines.extend(lengths.iter().map(|&length| line(&bytes[..length], tag)));
    }
    lines
}

/// Fewer bytes than a header has, and a few more.
fn of_few_bytes() -> Vec<Line> {
    let mut lines = Vec::new();
    for length in 0..=17 {
        for at in [0, 1, 8, 9, length, length + 1] {
            lines.push(line(&vec![0; length], at));
        }
        lines.push(line(&vec![0; length], FAR[length % FAR.len()]));
    }
    lines
}

/// Lengths of one to three bytes that just meet the end, pass it or do not reach it, and lengths
/// with which a sum passes 2^32; behind bytes of no meaning too.
fn of_lengths() -> Vec<Line> {
    let of = |before: usize, length: usize, held: usize| -> Line {
        let header = [b"abcd".to_vec(), (length as u32).to_be_bytes().to_vec()].concat();
        let parts: [(&[u8], usize); 3] = [(b"\x01", before), (&header, 1), (b"\0", held)];
        format!("section {} {before}", spell_parts(&parts)).into()
    };
    let mut lines = Vec::new();
    for before in [0, 1, 8, 14, 16, 300] {
        for length in [0, 1, 5, 127, 128, 255, 256, 258, 65_535, 65_536, 66_051] {
            lines.push(of(before, length, length));
            lines.push(of(before, length + 1, length));
            lines.push(of(before, length, length + 1));
        }
        for length in GREAT_LENGTHS {
            lines.push(of(before, length as usize, 40));
        }
        lines.push(of(before, 0xFFFF_FFF8 - before, 40));
        lines.push(of(before, 0x0500_0000, 5));
        lines.push(of(before, 0x0100_0000, 65_536));
    }
    lines
}

/// Files at the limit and over it, which is no refusal here, and bodies over theirs.
fn of_great_files() -> Vec<Line> {
    let body = group_bytes(b"A", &[]);
    let mut lines = Vec::new();
    for length in [FILE_LIMIT - 1, FILE_LIMIT, FILE_LIMIT + 1] {
        let file = filled(&body, length);
        let fill = 22 + 8 + body.len();
        let places = [
            0,
            14,
            22,
            fill,
            fill + 1,
            length - 8,
            length - 7,
            length,
            FAR[7],
        ];
        lines.extend(places.map(|at| line(&file, at)));
    }
    for length in [BODY_LIMIT, BODY_LIMIT + 1] {
        let file = around(&vec![0; length])[2].bytes();
        lines.extend([14, 23, 24, file.len() - 16].map(|at| line(&file, at)));
    }
    lines
}

/// A place that mostly is that of a section, by the lengths as they stand; near one, near the end,
/// past it, or any.
pub fn some_place(dice: &mut Dice, file: &[u8]) -> usize {
    let end = file.len();
    let tags: Vec<usize> = beginnings(file).collect();
    if tags.is_empty() {
        return dice.pick(&FAR);
    }
    let tag = dice.pick(&tags);
    match dice.below(100) {
        0..=49 => tag,
        50..=66 => (tag + dice.below(18)).saturating_sub(8),
        67..=78 => dice.below(end),
        79..=92 => (end + dice.below(12)).saturating_sub(9),
        93..=95 => end + dice.below(70_000),
        _ => dice.pick(&FAR),
    }
}
