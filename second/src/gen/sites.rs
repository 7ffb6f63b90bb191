//! Lines on the chunk that has a place: every place of sound bodies, first and last bytes of the
//! chunks of damaged ones and of entries, lengths that jump, and places at and past the end.

use crate::bytes::{Tag, CNTT, CSEG, CTAB, CTB2, SDEC};
use crate::edition::Edition;
use crate::gen::asks::{all_lists, sample_of};
use crate::gen::bodies::{bodies, great_bodies, long_groups, longest_sound, many, named, seg_text};
use crate::gen::checks::BOTH;
use crate::gen::dice::Dice;
use crate::gen::draft::Chunk;
use crate::gen::entries::{pieces, some_piece};
use crate::gen::families::{ctb2_family_body, family_body};
use crate::gen::faults::GREAT_LENGTHS;
use crate::gen::spell::{body_line, spell_parts, Line};
use crate::script;
use crate::site::beginnings;
use crate::style::BODY_LIMIT;
use crate::write::{chunk, group_bytes};

/// Of a hundred bodies of the catalogue so many are asked.
const ASKED: usize = 45;

/// Places past the end of every body.
const FAR: [usize; 7] = [
    32_768,
    32_769,
    65_536,
    0x7FFF_FFFF,
    0x8000_0000,
    0xFFFF_FFF8,
    0xFFFF_FFFF,
];

fn line(bytes: &[u8], place: usize) -> Line {
    body_line("site", bytes, &place.to_string())
}

fn lines(bytes: &[u8], places: &[usize]) -> Vec<Line> {
    places.iter().map(|&place| line(bytes, place)).collect()
}

pub fn site(dice: &mut Dice) -> Vec<Line> {
    let mut lists = vec![of_great_bodies(dice), of_lengths(dice), of_headers()];
    for edition in BOTH {
        let small = match edition {
            Edition::First => family_body(dice),
            Edition::Second => ctb2_family_body(dice),
        };
        let every: Vec<usize> = (0..small.len() + 2).collect();
        lists.push(lines(&small, &every));
        let sample = sample_of(dice, edition);
        lists.push(lines(&sample, &telling(&sample)));
        lists.push(of_cuts(&sample));
        lists.push(of_loose(&sample));
    }
    lists.push(of_catalogue(dice));
    super::in_turn(lists)
}

/// The first and the last byte of every chunk, its tag's and its length's last ones and its first
/// behind these; the end and past it.
fn telling(bytes: &[u8]) -> Vec<usize> {
    let starts: Vec<usize> = beginnings(bytes).collect();
    let mut places = Vec::new();
    for (number, &start) in starts.iter().enumerate() {
        let end = starts.get(number + 1).copied().unwrap_or(bytes.len());
        let own = [start, start + 3, start + 4, start + 7, start + 8, end - 1];
        places.extend(own.into_iter().filter(|place| *place < end));
    }
    places.dedup();
    places.extend([bytes.len(), bytes.len() + 1]);
    places
}

/// A telling place of the bytes, mostly; at times any, near the end, at it or past it.
pub fn some_place(dice: &mut Dice, bytes: &[u8]) -> usize {
    let end = bytes.len();
    match dice.below(100) {
        0..=64 => dice.pick(&telling(bytes)),
        65..=81 if end > 0 => dice.below(end),
        82..=91 => (end + dice.below(5)).saturating_sub(4),
        92..=95 => end + dice.below(40_000),
        _ => dice.pick(&FAR),
    }
}

/// A body cut in its second half at every byte: the first and the last byte of the chunk that is
/// cut, and the end.
fn of_cuts(body: &[u8]) -> Vec<Line> {
    let mut list = Vec::new();
    for length in body.len() / 2..body.len() {
        let cut = &body[..length];
        let last = beginnings(cut).last().unwrap_or(0);
        let place = [last, length - 1, length, last.saturating_sub(1)][length % 4];
        list.push(line(cut, place));
    }
    list
}

/// Loose bytes before, between and behind groups, and children without a group.
fn of_loose(body: &[u8]) -> Vec<Line> {
    let name = named("Coda");
    let loose = chunk(*b"Abcd", b"loose");
    let list = [
        [&loose, &body[..22]].concat(),
        [&loose, &loose, &name[..], &loose, &name].concat(),
        [&name[..], b"xyz", &name].concat(),
        [b"xyz", &name[..]].concat(),
        [&name[..], &loose, &loose, b"CSE"].concat(),
        [&name[8..], &name].concat(),
        body[8..120].to_vec(),
        body[30..130].to_vec(),
    ];
    list.iter()
        .flat_map(|bytes| lines(bytes, &telling(bytes)))
        .collect()
}

/// Headers behind headers, headers cut, CSEG inside a chunk and nearly CSEG; group lengths that lie.
fn of_headers() -> Vec<Line> {
    let name = named("A");
    let mut list = vec![
        b"CSEG".to_vec(),
        b"CSE".to_vec(),
        b"CSEG\0\0\0".to_vec(),
        CSEG.repeat(6),
        [CSEG, [0; 4]].concat().repeat(5),
        [&name[..8], &name[..8], &name].concat(),
        [&name[..], b"CSEG\0\0\0\0CSEG"].concat(),
        [
            &name[..],
            b"CSEG\xFF\xFF\xFF\xFF",
            &name[8..],
            b"CSEg\0\0\0\x02ab",
            &name,
        ]
        .concat(),
        [named("CSEG,CSEG"), named("xCSEG\0\0\0\0")].concat(),
        [group_bytes(&seg_text(), &[]), name.clone()].concat(),
        [b"cseg\0\0\0\0", &name[..]].concat(),
    ];
    for length in [0, 1, 8, 10, 200, 0x0100_0000, 0xFFFF_FFF8, 0xFFFF_FFFFu32] {
        let mut lying = name.clone();
        lying[4..8].copy_from_slice(&length.to_be_bytes());
        list.push([&lying[..], &name, &name].concat());
    }
    list.iter()
        .flat_map(|bytes| lines(bytes, &telling(bytes)))
        .collect()
}

/// Chunks of every kind with lengths that are 0, too small, too great by one, to the end and past
/// it, and with which a sum passes 2^32; behind a group's header and without one.
fn of_lengths(dice: &mut Dice) -> Vec<Line> {
    const TAGS: [Tag; 6] = [SDEC, CTAB, CTB2, CNTT, *b"Abcd", [0; 4]];
    let mut list = Vec::new();
    let behind = [named("A"), chunk(CNTT, &[1, 2]), named("B")].concat();
    let end = behind.len() as u32 + 4;
    let mut lengths = vec![0, 3, 5, 12, 0x14, end - 1, end, end + 1, 0x100, 0x0400_0000];
    lengths.extend(GREAT_LENGTHS);
    lengths.extend([0xFFFF_FFE8, 0xFFFF_FFFC, 0x0001_0000]);
    for (turn, length) in lengths.into_iter().enumerate() {
        for before in [&b""[..], b"CSEG\0\0\0\x14", b"Sdec\0\0\0\x01A"] {
            let lying = Chunk {
                tag: TAGS[turn % TAGS.len()],
                declared: Some(length),
                payload: b"four".to_vec(),
            };
            let bytes = [before, &lying.bytes(), &behind].concat();
            let at = before.len();
            let last = bytes.len() - 1;
            let near = [at, at + 7, at + 8, at + 11, at + 12, last, last - 9];
            list.extend(lines(&bytes, &near));
            list.push(line(&bytes, dice.below(bytes.len())));
        }
    }
    for length in [255, 256, 257, 512, 4_096] {
        let parts = [b"CSEG\0\0\0\0".to_vec(), chunk(SDEC, &vec![0x41; length])];
        let bytes = [parts.concat(), named("B")].concat();
        list.extend(lines(&bytes, &telling(&bytes)));
    }
    list
}

/// Bodies at the limit and over it, with and without the place; many headers, many chunks.
fn of_great_bodies(dice: &mut Dice) -> Vec<Line> {
    let mut list = Vec::new();
    let mut put = |body: &str, places: &[usize]| {
        let lines = places.iter().map(|place| format!("site {body} {place}"));
        list.extend(lines.map(Line::from));
    };
    for body in great_bodies() {
        let length = script::bytes(body.as_bytes()).map_or(0, |bytes| bytes.len());
        put(&body, &[0, 40, 32_767, length - 1, length, FAR[6]]);
    }
    let empty = [&CSEG[..], &[0; 4]].concat();
    let in_a_row = [&b"Abcd\0\0\0\0"[..], &empty, &chunk(SDEC, &[0x41; 247])];
    for part in in_a_row {
        let count = BODY_LIMIT / part.len();
        let rest = BODY_LIMIT % part.len();
        let body = spell_parts(&[(part, count), (&[0], rest)]);
        let some = part.len() * dice.below(count);
        put(&body, &[some, some + 7, some.saturating_sub(1)]);
        put(&body, &[part.len() * 256, 32_767, 32_768]);
    }
    for length in [BODY_LIMIT + 256, 65_536, 65_558] {
        let body = spell_parts(&[(&named("A"), 1), (&[0], length - 17)]);
        put(&body, &[0, 20, length - 1, length, length + 1]);
    }
    for bytes in [
        longest_sound(dice),
        long_groups(dice, Edition::Second, 4),
        many(40),
    ] {
        for _ in 0..6 {
            list.push(line(&bytes, some_place(dice, &bytes)));
        }
    }
    list.extend([0, 1, 8, FAR[0], FAR[6]].map(|place| line(&[], place)));
    list
}

/// Bodies of the catalogue and entries of theirs.
fn of_catalogue(dice: &mut Dice) -> Vec<Line> {
    let catalogue = bodies(dice);
    let mut list = Vec::new();
    for body in all_lists(&catalogue).into_iter().flatten() {
        if body.len() > 3_000 || !dice.percent(ASKED) {
            continue;
        }
        list.push(line(body, some_place(dice, body)));
        list.push(line(body, dice.pick(&telling(body))));
        if pieces(body).len() > 1 {
            let piece = some_piece(dice, body);
            list.push(line(&piece, some_place(dice, &piece)));
        }
    }
    list
}
