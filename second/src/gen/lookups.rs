//! The catalogue of part, where and channel: every group, name and record of bodies that are
//! sound, numbers, names and channels that are not there, and the catalogue of bodies.

use crate::body::read_body;
use crate::edition::Edition;
use crate::gen::asks::{
    common_lists, over_bodies, over_great, record_questions, sample, sample_of, some_channel,
    some_group, NO_GROUP,
};
use crate::gen::bodies::{longest_sound, many, Bodies};
use crate::gen::chords::{some_part, NO_PART};
use crate::gen::cntts::with_cntt;
use crate::gen::dice::Dice;
use crate::gen::positions::number_somehow;
use crate::gen::sound::{records_of, CNTT_VALUES};
use crate::gen::spell::{body_line, spell, Line};
use crate::group::Placed;
use crate::record::Record;
use crate::sdec::names;
use crate::write::group_bytes;

/// So many records of different source channels, these of them with a Cntt where they can have one,
/// in some order.
fn with_cntts(dice: &mut Dice, edition: Edition, count: usize, cntts: &[usize]) -> Vec<Record> {
    let mut list = records_of(dice, edition, count);
    for (number, record) in list.iter_mut().enumerate() {
        let has_cntt = cntts.contains(&number);
        *record = with_cntt(*record, has_cntt.then(|| dice.pick(&CNTT_VALUES)));
    }
    number_somehow(dice, &mut list);
    list
}

/// The texts of five groups.
const TEXTS: [&[u8]; 5] = [
    b"A",
    b"B,b",
    b"Main A,Main,A Main",
    b"sixteen letters.",
    b" ",
];

/// How many records those groups have, and which of them have a Cntt.
const SHAPES: [(usize, &[usize]); 5] = [(0, &[]), (1, &[]), (3, &[0, 1]), (1, &[0]), (3, &[2])];

/// Bodies of those five groups, each in the first, a middle and the last place; each of the five
/// alone; and one of sixteen records with a Cntt each.
fn shaped_bodies(dice: &mut Dice, edition: Edition) -> Vec<Vec<u8>> {
    let groups: Vec<Vec<u8>> = TEXTS
        .iter()
        .zip(SHAPES)
        .map(|(text, (count, cntts))| group_bytes(text, &with_cntts(dice, edition, count, cntts)))
        .collect();
    let mut list: Vec<Vec<u8>> = (0..groups.len())
        .map(|turn| [&groups[turn..], &groups[..turn]].concat().concat())
        .collect();
    list.extend(groups);
    let all: Vec<usize> = (0..16).collect();
    list.push(group_bytes(b"A", &with_cntts(dice, edition, 16, &all)));
    list
}

/// Some of the same of the second edition.
fn shaped_ctb2s(dice: &mut Dice) -> [Vec<u8>; 6] {
    let list = shaped_bodies(dice, Edition::Second);
    [0, 2, 3, 6, 7, 10].map(|number| list[number].clone())
}

/// Every group number and source channel of a sound body.
pub fn every_record(body: &[u8]) -> Vec<(u64, u8)> {
    let groups = read_body(body).unwrap_or_default();
    let numbered = (0..).zip(&groups);
    numbered
        .flat_map(|(number, group)| {
            let channel = |placed: &Placed| placed.record.source_channel();
            let records = group.records.iter();
            records.map(move |placed| (number, channel(placed)))
        })
        .collect()
}

/// Names that those groups do not have: parts of a name, a whole text, a tag.
const NEARLY: [&[u8]; 7] = [
    b"a",
    b"B,b",
    b"M",
    b"A ",
    b"Sdec",
    b"CSEG",
    b"sixteen letters",
];

pub fn part(dice: &mut Dice, bodies: &Bodies) -> Vec<Line> {
    let sample = sample(dice);
    let ask = |body: &[u8], part: &[u8]| body_line("part", body, &spell(part));
    let mut lines: Vec<Line> = [&b"Main A"[..], b"Ending A", b"Fill In AA", b"Main B"]
        .map(|part| ask(&sample, part))
        .into();
    lines.extend(NO_PART.map(|part| ask(&sample, part)));
    lines.extend(["- -", "- 41", "00 41", "00 -"].map(|tokens| format!("part {tokens}").into()));
    let shaped = shaped_bodies(dice, Edition::First);
    for body in &shaped {
        let parts = TEXTS.into_iter().flat_map(names);
        lines.extend(parts.map(|part| ask(body, part)));
    }
    lines.extend(NEARLY.map(|part| ask(&shaped[0], part)));
    let most = many(32);
    for number in [0, 1, 15, 30, 31, 32] {
        lines.push(ask(&most, format!("Part {number}").as_bytes()));
    }
    lines.extend(over_great("part", "41"));
    lines.extend(over_bodies(
        dice,
        "part",
        &common_lists(bodies),
        |dice, body| spell(&some_part(dice, body)),
    ));
    for body in &shaped_ctb2s(dice) {
        let parts = TEXTS.into_iter().flat_map(names);
        lines.extend(parts.map(|part| ask(body, part)));
    }
    let longest = longest_sound(dice);
    let tokens = spell(&some_part(dice, &longest));
    lines.push(body_line("part", &longest, &tokens));
    lines
}

pub fn place_of_group(dice: &mut Dice, bodies: &Bodies) -> Vec<Line> {
    let sample = sample(dice);
    let ask = |body: &[u8], number: u64| body_line("where", body, &number.to_string());
    let mut lines: Vec<Line> = [0, 1, 2].map(|number| ask(&sample, number)).into();
    let second = sample_of(dice, Edition::Second);
    lines.extend([0, 1, 2].map(|number| ask(&second, number)));
    lines.extend(NO_GROUP.map(|number| ask(&sample, number)));
    let bare = ["- 0", "- 1", "00 0", "00 32", "00 4294967295"];
    lines.extend(bare.map(|tokens| format!("where {tokens}").into()));
    let mut shaped = shaped_bodies(dice, Edition::First);
    shaped.extend(shaped_ctb2s(dice));
    for body in shaped {
        lines.extend((0..6).map(|number| ask(&body, number)));
    }
    let most = many(32);
    lines.extend([0, 1, 15, 30, 31, 32].map(|number| ask(&most, number)));
    lines.extend(over_great("where", "0"));
    lines.extend(over_bodies(
        dice,
        "where",
        &common_lists(bodies),
        |dice, body| some_group(dice, body).to_string(),
    ));
    let longest = longest_sound(dice);
    lines.extend([0, 31].map(|number| ask(&longest, number)));
    lines
}

pub fn channel(dice: &mut Dice, bodies: &Bodies) -> Vec<Line> {
    let mut lines = record_questions("channel", &sample(dice));
    let ask = |body: &[u8], number: u64, channel: u8| {
        body_line("channel", body, &format!("{number} {channel}"))
    };
    let every = |body: &[u8]| -> Vec<Line> {
        let records = every_record(body).into_iter();
        records
            .map(|(number, channel)| ask(body, number, channel))
            .collect()
    };
    for body in shaped_bodies(dice, Edition::First) {
        lines.extend(every(&body));
    }
    lines.extend(over_great("channel", "0 0"));
    let lists = common_lists(bodies);
    lines.extend(over_bodies(dice, "channel", &lists, some_channel));
    for body in shaped_ctb2s(dice) {
        lines.extend(every(&body));
    }
    let second = sample_of(dice, Edition::Second);
    lines.extend(record_questions("channel", &second));
    for edition in [Edition::First, Edition::Second] {
        let last = group_bytes(b"Last", &records_of(dice, edition, 15));
        let most = [many(31), last].concat();
        lines.extend((0..18).map(|channel| ask(&most, 31, channel)));
    }
    lines
}
