//! Lines on entries of salvage lists by their bytes alone: cut as a list cuts them, with what stands
//! behind them, and each refusal.

use crate::bytes::{CSEG, HEADER};
use crate::edition::Edition;
use crate::gen::asks::{all_lists, over_great};
use crate::gen::bodies::{bodies, long_groups, many, named, seg_text};
use crate::gen::checks::BOTH;
use crate::gen::cntts::{at_position, with_cntt};
use crate::gen::ctb2_bodies::{other, plain};
use crate::gen::dice::Dice;
use crate::gen::families::{family, sample_of};
use crate::gen::spell::{body_line, spell_parts, Line};
use crate::salvage::{entries, SOUND};
use crate::style::BODY_LIMIT;
use crate::write::group_bytes;

/// Of a hundred entries of kind 0 so many are asked for, and of a hundred bodies so many as a whole.
const SOUND_ONES: usize = 12;
const WHOLE_ONES: usize = 15;

/// The most entries of one body.
const MOST_ENTRIES: usize = 4;

/// Changes of one byte of a group, so many of each edition.
const CHANGES: usize = 250;

fn line(piece: &[u8]) -> Line {
    body_line("entry", piece, "")
}

pub fn entry(dice: &mut Dice) -> Vec<Line> {
    let mut lists = vec![of_few_bytes(), of_great_pieces(dice), of_names()];
    for edition in BOTH {
        lists.push(followed(edition));
        lists.push(of_one_group(dice, edition));
    }
    lists.push(of_catalogue(dice));
    super::in_turn(lists)
}

/// The entries of a body's salvage list.
pub fn pieces(body: &[u8]) -> Vec<(&[u8], u8)> {
    let list = entries(body).into_iter();
    list.map(|entry| (&body[entry.place..][..entry.length], entry.kind))
        .collect()
}

/// Some entry of a body's list, mostly one that is not sound where there is one; at times with the
/// bytes that stand behind it.
pub fn some_piece(dice: &mut Dice, body: &[u8]) -> Vec<u8> {
    let mut list = entries(body);
    if list.iter().any(|entry| entry.kind != SOUND) && dice.percent(75) {
        list.retain(|entry| entry.kind != SOUND);
    }
    if list.is_empty() {
        return Vec::new();
    }
    let entry = dice.pick(&list);
    let rest = body.len() - entry.place - entry.length;
    let behind = match dice.below(10) {
        0 => rest,
        1 | 2 if rest > 0 => dice.below(rest.min(20)),
        _ => 0,
    };
    body[entry.place..][..entry.length + behind].to_vec()
}

/// A group of an edition with two records and, in the first, their Cntts.
fn group(edition: Edition) -> Vec<u8> {
    let record = |channel, position| {
        let record = with_cntt(plain(edition, channel), Some(0x84));
        at_position(record, position)
    };
    group_bytes(b"Main A", &[record(5, 2), record(2, 1)])
}

/// Fewer than four bytes, nearly CSEG, CSEG behind other bytes, and a header cut.
fn of_few_bytes() -> Vec<Line> {
    let header = b"CSEG\0\0\0\x0ESdec";
    let mut lines: Vec<Line> = (0..header.len())
        .map(|length| line(&header[..length]))
        .collect();
    for length in 1..=9 {
        lines.push(line(&vec![0; length]));
    }
    for tag in [*b"CSEg", *b"DSEG", *b"cseg", *b"CTEG", *b"CSDG", *b"Sdec"] {
        let mut piece = named("A");
        piece[..4].copy_from_slice(&tag);
        lines.push(line(&piece));
        lines.push(line(&tag));
    }
    for before in [
        &b"x"[..],
        b"C",
        b"CS",
        b"CSE",
        b"CSEGC",
        b"\0\0\0\0\0\0\0\0",
    ] {
        lines.push(line(&[before, &named("A")].concat()));
    }
    lines
}

/// Pieces at the limit and over it, sound, damaged and loose ones: 3 comes before all.
fn of_great_pieces(dice: &mut Dice) -> Vec<Line> {
    let mut lines = over_great("entry", "");
    let near = [BODY_LIMIT - 1, BODY_LIMIT, BODY_LIMIT + 1, BODY_LIMIT + 256];
    for length in near.into_iter().chain([65_536, 65_558, 1_048_577]) {
        for start in [&group(Edition::First), &group(Edition::Second), &vec![0x43]] {
            let parts: [(&[u8], usize); 2] = [(start, 1), (&[0], length - start.len())];
            lines.push(format!("entry {}", spell_parts(&parts)).into());
        }
    }
    for edition in BOTH {
        lines.push(line(&long_groups(dice, edition, 1)));
        lines.push(line(&long_groups(dice, edition, 2)));
    }
    lines
}

/// Names that hold CSEG, at which a list would cut.
fn of_names() -> Vec<Line> {
    let in_length = group_bytes(&seg_text(), &[]);
    ["CSEG", "A,CSEG", "CSEG,B", "xCSEGx", "CSE", "SEG"]
        .map(named)
        .iter()
        .chain([&in_length])
        .map(|piece| line(piece))
        .collect()
}

/// A group and what follows it, which is not looked at: loose bytes, CSEG alone and cut, chunks of a
/// group, and groups with which a body would be refused 12, 13 or 21; and the same as if inside it.
fn followed(edition: Edition) -> Vec<Line> {
    let group = group(edition);
    let unlike = group_bytes(b"Other", &[plain(other(edition), 4)]);
    let behind = [
        Vec::new(),
        b"x".to_vec(),
        vec![0; 7],
        vec![0; 8],
        vec![0xFF; 30],
        CSEG.to_vec(),
        b"CSEG\0\0\0\x09".to_vec(),
        b"CSEG\0\0\0\0".to_vec(),
        b"Cntt\0\0\0\x02\x05\x84".to_vec(),
        group[8..].to_vec(),
        group[22..].to_vec(),
        group.clone(),
        unlike,
        named("Main A"),
        many(40),
    ];
    let mut lines = Vec::new();
    for rest in behind {
        let piece = [&group[..], &rest].concat();
        lines.push(line(&piece));
        for length in [group.len() - HEADER + 1, piece.len() - HEADER] {
            let mut declared = piece.clone();
            declared[4..8].copy_from_slice(&(length as u32).to_be_bytes());
            lines.push(line(&declared));
        }
    }
    lines
}

/// One group cut at every byte, and with single bytes changed.
fn of_one_group(dice: &mut Dice, edition: Edition) -> Vec<Line> {
    let group = group(edition);
    let mut list = family(dice, &group);
    let changed = list.split_off(group.len());
    list.extend(sample_of(dice, &changed, CHANGES));
    list.iter().map(|piece| line(piece)).collect()
}

/// The entries of the catalogue's bodies, some bodies whole, and some from an entry on to their end.
fn of_catalogue(dice: &mut Dice) -> Vec<Line> {
    let catalogue = bodies(dice);
    let mut lines = Vec::new();
    for body in all_lists(&catalogue).into_iter().flatten() {
        if body.len() > 3_000 {
            continue;
        }
        let mut asked = pieces(body);
        asked.retain(|&(_, kind)| kind != SOUND || dice.percent(SOUND_ONES));
        lines.extend(
            asked
                .iter()
                .take(MOST_ENTRIES)
                .map(|(piece, _)| line(piece)),
        );
        if dice.percent(WHOLE_ONES) {
            lines.push(line(body));
        }
        let list = entries(body);
        if !list.is_empty() && dice.percent(WHOLE_ONES) {
            lines.push(line(&body[dice.pick(&list).place..]));
        }
    }
    lines
}
