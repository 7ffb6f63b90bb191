//! The catalogue of plays: parts that are there or not, chords in range or not, and the masks
//! probed for every root and every type.

use crate::body::read_body;
use crate::edition::Edition;
use crate::gen::asks::{common_lists, over_bodies, over_great, sample, sample_of};
use crate::gen::bodies::Bodies;
use crate::gen::ctb2;
use crate::gen::dice::Dice;
use crate::gen::sound;
use crate::gen::spell::{body_line, spell, Line};
use crate::record::Record;
use crate::sdec::names;
use crate::write::group_bytes;

/// Part names that no group has.
pub const NO_PART: [&[u8]; 14] = [
    b"",
    b",",
    b"Main A,Main B",
    b"Main",
    b"Main A ",
    b" Main A",
    b"main a",
    b"Main C",
    b"Main A\0",
    b"Main\x7FA",
    b"\xFF",
    b"Seventeen letters",
    b"Sixteen letters.",
    b"Main A,",
];

/// Roots and types where at least one is out of range.
const NO_CHORD: [(u8, u8); 10] = [
    (12, 0),
    (127, 0),
    (255, 0),
    (0, 34),
    (0, 127),
    (0, 128),
    (0, 255),
    (11, 34),
    (12, 33),
    (128, 64),
];

pub fn plays(dice: &mut Dice, bodies: &Bodies) -> Vec<Line> {
    let sample = sample(dice);
    let ask = |part: &[u8], root: u8, chord_type: u8| {
        let tokens = format!("{} {root} {chord_type}", spell(part));
        body_line("plays", &sample, &tokens)
    };
    let mut lines = Vec::new();
    for part in [&b"Main A"[..], b"Main B", b"Ending A", b"Fill In AA"] {
        lines.push(ask(part, 0, 0));
        lines.push(ask(part, 11, 33));
    }
    lines.extend(NO_PART.map(|part| ask(part, 3, 3)));
    for (root, chord_type) in NO_CHORD {
        lines.push(ask(b"Main A", root, chord_type));
        lines.push(ask(b"Nobody", root, chord_type));
        lines.push(format!("plays 00 4d {root} {chord_type}").into());
    }
    lines.push(b"plays - - 0 0".to_vec());
    let second = sample_of(dice, Edition::Second);
    for (part, root, chord_type) in [
        (&b"Main A"[..], 0, 0),
        (b"Main B", 11, 33),
        (b"Ending A", 3, 3),
        (b"Fill In AA", 7, 19),
        (b"Main C", 7, 19),
        (b"Main A", 12, 0),
        (b"Main A", 0, 34),
    ] {
        let tokens = format!("{} {root} {chord_type}", spell(part));
        lines.push(body_line("plays", &second, &tokens));
    }
    lines.extend(masks(dice));
    lines.extend(over_great("plays", "41 0 0"));
    let lists = common_lists(bodies);
    lines.extend(over_bodies(dice, "plays", &lists, some_chord));
    lines
}

/// Every root and every type, against records of one bit, of all but one bit, and by chance; every
/// third time they are of the second edition.
fn masks(dice: &mut Dice) -> Vec<Line> {
    let mut lines = Vec::new();
    for number in 0..12 + 34 {
        let (root, chord_type) = if number < 12 {
            (number, 0)
        } else {
            (0, number - 12)
        };
        let roots = 1u16 << root;
        let types = 1u64 << chord_type;
        let plain = if number % 3 == 2 {
            ctb2::plain
        } else {
            sound::plain
        };
        let masked = |channel, roots, types| masked(plain(channel), roots, types);
        let group = [
            masked(0, roots, types),
            masked(1, !roots & 0x0FFF, types),
            masked(2, roots, !types & 0x07_FFFF_FFFF),
            masked(3, roots | 1, types | 1),
            masked(4, 0, 0),
            masked(5, 0x0FFF, 0x04_0000_0000),
            masked(6, dice.roll() as u16 & 0x0FFF, dice.roll() & 0x07_FFFF_FFFF),
        ];
        let body = group_bytes(b"A", &group);
        lines.push(body_line(
            "plays",
            &body,
            &format!("41 {root} {chord_type}"),
        ));
    }
    lines
}

/// The record with these masks.
fn masked(mut record: Record, roots: u16, types: u64) -> Record {
    record[11..13].copy_from_slice(&roots.to_be_bytes());
    record[13..18].copy_from_slice(&types.to_be_bytes()[3..]);
    record
}

/// A part that mostly is there.
pub fn some_part(dice: &mut Dice, body: &[u8]) -> Vec<u8> {
    if let Ok(groups) = read_body(body) {
        if !groups.is_empty() && dice.percent(90) {
            let text = groups[dice.below(groups.len())].text;
            let names: Vec<&[u8]> = names(text).collect();
            return dice.pick(&names).to_vec();
        }
    }
    b"Main A".to_vec()
}

/// A part that mostly is there, and a chord.
pub fn some_chord(dice: &mut Dice, body: &[u8]) -> String {
    let part = spell(&some_part(dice, body));
    format!("{part} {} {}", dice.below(12), dice.below(34))
}
