//! The catalogue of the verbs body, group, voice and salvage, each with its own refusals 14, 15
//! and 16 before the catalogue of bodies; and what plays, edit and the lookups share with them.

use crate::body::read_body;
use crate::edition::Edition;
use crate::gen::bodies::{great_bodies, longest_sound, Bodies};
use crate::gen::cntts::with_cntt;
use crate::gen::ctb2;
use crate::gen::dice::Dice;
use crate::gen::positions::number_somehow;
use crate::gen::sound::{plain, record, records_of, CNTT_VALUES};
use crate::gen::spell::{body_line, Line};
use crate::write::group_bytes;

/// Group numbers that the sample body does not have.
pub const NO_GROUP: [u64; 6] = [3, 4, 32, 255, 256, 4_294_967_295];

/// Source channels that the sample body has nowhere.
pub const NO_CHANNEL: [u8; 4] = [7, 16, 128, 255];

/// Three groups of the first edition: 3 records with two Cntts in some order, none, and 1 record.
pub fn sample(dice: &mut Dice) -> Vec<u8> {
    let mut first = vec![
        with_cntt(plain(4), Some(dice.pick(&CNTT_VALUES))),
        with_cntt(record(dice, 0), None),
        with_cntt(plain(15), Some(dice.pick(&CNTT_VALUES))),
    ];
    first[2][1..9].copy_from_slice(b" a b  \0 ");
    number_somehow(dice, &mut first);
    [
        group_bytes(b"Main A,Main B", &first),
        group_bytes(b"Ending A", &[]),
        group_bytes(b"Fill In AA", &[plain(9)]),
    ]
    .concat()
}

/// The same of an edition; the second has no Cntts.
pub fn sample_of(dice: &mut Dice, edition: Edition) -> Vec<u8> {
    if edition == Edition::First {
        return sample(dice);
    }
    let mut records = [ctb2::plain(4), ctb2::record(dice, 0), ctb2::plain(15)];
    records[2][1..9].copy_from_slice(b" a b  \0 ");
    [
        group_bytes(b"Main A,Main B", &records),
        group_bytes(b"Ending A", &[]),
        group_bytes(b"Fill In AA", &[ctb2::plain(9)]),
    ]
    .concat()
}

/// The bodies of the catalogue as lines of a verb, with tokens made for each.
pub fn over_bodies(
    dice: &mut Dice,
    verb: &str,
    bodies: &[&[Vec<u8>]],
    tokens: fn(&mut Dice, &[u8]) -> String,
) -> Vec<Line> {
    bodies
        .iter()
        .flat_map(|list| list.iter())
        .map(|body| {
            let tokens = tokens(dice, body);
            body_line(verb, body, &tokens)
        })
        .collect()
}

/// All of the catalogue but the moved faults.
pub fn common_lists(bodies: &Bodies) -> [&[Vec<u8>]; 8] {
    [
        &bodies.faults,
        &bodies.meetings,
        &bodies.editions,
        &bodies.second,
        &bodies.limits,
        &bodies.looks,
        &bodies.orders,
        &bodies.further,
    ]
}

/// All of the catalogue.
pub fn all_lists(bodies: &Bodies) -> [&[Vec<u8>]; 9] {
    [
        &bodies.faults,
        &bodies.meetings,
        &bodies.editions,
        &bodies.second,
        &bodies.limits,
        &bodies.looks,
        &bodies.orders,
        &bodies.moved,
        &bodies.further,
    ]
}

/// The great bodies as lines of a verb.
pub fn over_great(verb: &str, tokens: &str) -> Vec<Line> {
    great_bodies()
        .iter()
        .map(|body| format!("{verb} {body} {tokens}").trim_end().into())
        .collect()
}

pub fn body(dice: &mut Dice, bodies: &Bodies) -> Vec<Line> {
    let mut lines = vec![body_line("body", &sample(dice), "")];
    lines.extend(over_great("body", ""));
    lines.extend(over_bodies(dice, "body", &all_lists(bodies), |_, _| {
        String::new()
    }));
    lines.push(body_line("body", &longest_sound(dice), ""));
    lines
}

/// A group number that mostly is there.
pub fn some_group(dice: &mut Dice, body: &[u8]) -> usize {
    match read_body(body) {
        Ok(groups) if !groups.is_empty() => dice.below(groups.len()),
        _ => dice.below(3),
    }
}

pub fn group(dice: &mut Dice, bodies: &Bodies) -> Vec<Line> {
    let sample = sample(dice);
    let mut lines = Vec::new();
    for body in [&sample, &sample_of(dice, Edition::Second)] {
        for (number, rooms) in [(0, &[3, 2, 0, 4, 32][..]), (1, &[0, 1]), (2, &[1, 0])] {
            for room in rooms {
                lines.push(body_line("group", body, &format!("{number} {room}")));
            }
        }
    }
    for number in NO_GROUP {
        for room in [0, 5] {
            lines.push(body_line("group", &sample, &format!("{number} {room}")));
        }
    }
    for tokens in ["- 0 0", "- 1 32", "00 9 0", "00 9 32"] {
        lines.push(format!("group {tokens}").into());
    }
    for edition in [Edition::First, Edition::Second] {
        let sixteen = group_bytes(b"Main A", &records_of(dice, edition, 16));
        for room in [15, 16, 17, 32] {
            lines.push(body_line("group", &sixteen, &format!("0 {room}")));
        }
    }
    lines.extend(over_great("group", "0 4"));
    lines.extend(over_bodies(dice, "group", &common_lists(bodies), some_room));
    lines.push(body_line("group", &longest_sound(dice), "31 16"));
    lines
}

/// A group number that mostly is there, and a room.
fn some_room(dice: &mut Dice, body: &[u8]) -> String {
    let number = some_group(dice, body);
    format!("{number} {}", dice.pick(&[0, 1, 3, 16, 32]))
}

/// Voice names that end, begin or consist of spaces, and of what looks like a space.
const VOICES: [&[u8; 8]; 10] = [
    b"        ",
    b"       x",
    b"x       ",
    b" x      ",
    b"Piano1  ",
    b"Piano12 ",
    b"Piano123",
    b"Nul    \0",
    b"\xA0\xFF    \xA0 ",
    b"CSEGCtab",
];

/// Lines of a verb that asks for a record by group and source channel, in the sample body and
/// where there is no group.
pub fn record_questions(verb: &str, sample: &[u8]) -> Vec<Line> {
    let ask = |number: u64, channel: u8| body_line(verb, sample, &format!("{number} {channel}"));
    let mut lines: Vec<Line> = [(0, 4), (0, 0), (0, 15), (0, 9), (1, 4), (2, 9), (2, 4)]
        .map(|(number, channel)| ask(number, channel))
        .into();
    for number in [0, 1] {
        lines.extend(NO_CHANNEL.map(|channel| ask(number, channel)));
    }
    for number in NO_GROUP {
        lines.extend([4, 7, 200].map(|channel| ask(number, channel)));
    }
    let bare = ["- 0 0", "00 9 99", "00 4294967295 255"];
    lines.extend(bare.map(|tokens| format!("{verb} {tokens}").into()));
    lines
}

pub fn voice(dice: &mut Dice, bodies: &Bodies) -> Vec<Line> {
    let mut lines = record_questions("voice", &sample(dice));
    let second = sample_of(dice, Edition::Second);
    lines.extend(record_questions("voice", &second));
    for name in VOICES {
        for plain in [plain, ctb2::plain] {
            let mut named = plain(2);
            named[1..9].copy_from_slice(name);
            let body = group_bytes(b"Main A", &[plain(6), named, plain(1)]);
            lines.push(body_line("voice", &body, "0 2"));
        }
    }
    lines.extend(over_great("voice", "0 0"));
    lines.extend(over_bodies(
        dice,
        "voice",
        &common_lists(bodies),
        some_channel,
    ));
    lines
}

/// A group and a source channel that mostly are there.
pub fn some_channel(dice: &mut Dice, body: &[u8]) -> String {
    if let Ok(groups) = read_body(body) {
        let full: Vec<usize> = (0..groups.len())
            .filter(|&number| !groups[number].records.is_empty())
            .collect();
        if !full.is_empty() && dice.percent(80) {
            let number = dice.pick(&full);
            let records = &groups[number].records;
            let channel = records[dice.below(records.len())].record.source_channel();
            return format!("{number} {channel}");
        }
    }
    format!("{} {}", some_group(dice, body), dice.below(18))
}

pub fn salvage(dice: &mut Dice, bodies: &Bodies) -> Vec<Line> {
    let sample = sample(dice);
    let loose = [b"xyz".to_vec(), sample.clone(), b"abc".to_vec()].concat();
    let mut lines = Vec::new();
    for room in [0, 1, 2, 3, 4, 5, 6, 8_192] {
        lines.push(body_line("salvage", &sample, &room.to_string()));
        lines.push(body_line("salvage", &loose, &room.to_string()));
    }
    for tokens in ["- 0", "- 1", "00 0", "00 1", "43534547 0", "43534547 1"] {
        lines.push(format!("salvage {tokens}").into());
    }
    for room in ["0", "8192"] {
        lines.extend(over_great("salvage", room));
    }
    for body in &great_bodies()[2..6] {
        for room in ["1", "2", "8191"] {
            lines.push(format!("salvage {body} {room}").into());
        }
    }
    lines.extend(over_bodies(
        dice,
        "salvage",
        &all_lists(bodies),
        |dice, _| dice.pick(&["8", "40", "8192", "3", "4"]).to_string(),
    ));
    lines.push(body_line("salvage", &longest_sound(dice), "32"));
    lines
}
