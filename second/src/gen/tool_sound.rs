//! Sound bodies and files as the tool for people meets them: many groups, rare settings, names and
//! voices with every kind of character, tags of any bytes.

use crate::bytes::{Tag, CASM};
use crate::edition::Edition;
use crate::gen::dice::Dice;
use crate::gen::draft::{Chunk, Draft, StyleDraft};
use crate::gen::sound::{self, records_of, some_edition};
use crate::record::Record;
use crate::style::BODY_LIMIT;
use std::collections::HashSet;

/// Names that a page, a table or a line has to write with care.
const NAMES: [&str; 24] = [
    "<script>",
    "</pre>",
    "http://evil.com/",
    "src=x url(y)",
    "@import 'a';",
    "onload=\"x()\"",
    "<!--",
    "]]>",
    "a&b",
    "&amp;",
    "&lt;",
    "\"quoted\"",
    "\"",
    "it's",
    "'",
    "back\\slash",
    "\\x1b",
    "Main A ",
    " Main A",
    "  ",
    "Main  A",
    "{\"a\":[1]}",
    "~!@#$%^*()_+|`",
    "sixteen   bytes ",
];

/// Voices with control bytes, bytes from 80H on and characters with a meaning of their own.
const VOICES: [[u8; 8]; 20] = [
    *b"Pad\x1B[2J ",
    *b"\x80\x81\xC3\xA9\xFF\xFE  ",
    *b"\0\0\0\0\0\0\0\0",
    *b"        ",
    *b"Piano\x7F  ",
    *b"\r\n\t    x",
    *b"tail\0   ",
    *b"   lead ",
    *b"<b>&amp;",
    *b"\"'\\/    ",
    *b"a\\x1bb  ",
    *b"\xFF\xFF\xFF\xFF\xFF\xFF\xFF\xFF",
    *b"\xC2\xA0 nbsp ",
    *b"\xE2\x80\xAE rtl ",
    *b"E.Piano ",
    *b"Std Kit1",
    *b"CSEG    ",
    *b"    \x20\xA0  ",
    *b"</td>   ",
    *b"~~~~~~~~",
];

/// A body of one edition, mostly of a few groups, at times of none or of as many as fit.
pub fn body(dice: &mut Dice) -> Vec<u8> {
    let most = match dice.below(30) {
        0 => 0,
        1 => 32,
        2 => dice.between(20, 32),
        3..=6 => dice.between(5, 10),
        _ => dice.between(1, 4),
    };
    groups(dice, most).concat()
}

/// At most so many groups of one edition, as many as fit into a body.
pub fn groups(dice: &mut Dice, most: usize) -> Vec<Vec<u8>> {
    let edition = some_edition(dice);
    let mut used = HashSet::new();
    let mut room = BODY_LIMIT;
    let mut list = Vec::new();
    while list.len() < most {
        let group = group(dice, edition, &mut used).bytes();
        if group.len() > room {
            break;
        }
        room -= group.len();
        list.push(group);
    }
    list
}

/// A group; now and then one without channels or with all sixteen.
pub fn group(dice: &mut Dice, edition: Edition, used: &mut HashSet<Vec<u8>>) -> Draft {
    let count = match dice.below(12) {
        0 => 0,
        1 => 16,
        _ => dice.between(1, 6),
    };
    let mut records = records_of(dice, edition, count);
    for record in &mut records {
        some_voice(dice, record);
    }
    Draft::new(&text(dice, used), &records)
}

fn some_voice(dice: &mut Dice, record: &mut Record) {
    match dice.below(4) {
        0 => (1..9).for_each(|index| record[index] = dice.byte()),
        1 | 2 => record[1..9].copy_from_slice(&dice.pick(&VOICES)),
        _ => (),
    }
}

/// Part names, odd ones among them; none of them used before.
fn text(dice: &mut Dice, used: &mut HashSet<Vec<u8>>) -> Vec<u8> {
    if dice.below(40) == 0 {
        let length = dice.between(200, 255);
        return sound::text_of_length(dice, length, used);
    }
    let names = dice.pick(&[1, 1, 1, 2, 2, 3, 4, 8]);
    let mut text = sound::text(dice, names, used);
    for name in [dice.pick(&NAMES), dice.pick(&NAMES)] {
        if text.len() < 200 && dice.percent(40) && used.insert(name.as_bytes().to_vec()) {
            text.push(b',');
            text.extend(name.as_bytes());
        }
    }
    text
}

/// Tags of other sections; each stands at most once in a file.
const TAGS: [Tag; 12] = [
    *b"OTSc",
    *b"FNRc",
    *b"MHhd",
    *b"MThd",
    *b"MTrk",
    *b"casm",
    *b"CSEG",
    [0; 4],
    *b"<&\"'",
    *b"\\x0\x1B",
    [0xFF, 0x80, 0x7F, 0x20],
    *b"    ",
];

/// A file around a body.
pub fn style(dice: &mut Dice, body: &[u8]) -> StyleDraft {
    let mut some_bytes = |most: usize| -> Vec<u8> {
        let length = dice.below(most + 1);
        (0..length).map(|_| dice.byte()).collect()
    };
    let mut file = StyleDraft::new(&some_bytes(40), &[]);
    file.head.payload = [some_bytes(1), vec![0; 6]].concat()[..6].to_vec();
    let payloads = [some_bytes(30), some_bytes(3), some_bytes(0)];
    let first = dice.below(TAGS.len());
    for (number, payload) in payloads.iter().enumerate().take(dice.below(4)) {
        let tag = TAGS[(first + 5 * number) % TAGS.len()];
        file.sections.push(Chunk::new(tag, payload));
    }
    let place = dice.below(file.sections.len() + 1);
    file.sections.insert(place, Chunk::new(CASM, body));
    file
}
