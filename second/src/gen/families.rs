//! The systematic families: truncations at every byte and single changes of every byte, of a
//! body with several groups and of a style file.

use crate::gen::cntts::with_cntt;
use crate::gen::ctb2;
use crate::gen::dice::Dice;
use crate::gen::draft::{Draft, StyleDraft};
use crate::gen::positions::number_somehow;
use crate::gen::sound::{record, CNTT_VALUES};
use crate::record::Record;

/// A body of at most 124 bytes: two or three groups with Ctabs and Cntts, by its shape.
pub fn family_body(dice: &mut Dice) -> Vec<u8> {
    let shapes: [&[&[bool]]; 6] = [
        &[&[true], &[false]],
        &[&[false], &[true]],
        &[&[], &[true, true]],
        &[&[true, true], &[]],
        &[&[true], &[], &[]],
        &[&[], &[true], &[]],
    ];
    let mut letters: Vec<u8> = (b'A'..=b'Z').collect();
    let mut body = Vec::new();
    for cntts in dice.pick(&shapes) {
        let text = [letters.swap_remove(dice.below(letters.len()))];
        body.extend(Draft::new(&text, &family_records(dice, cntts)).bytes());
    }
    body
}

/// One record for each flag, with a Cntt where it is set; the Cntts in some order.
fn family_records(dice: &mut Dice, cntts: &[bool]) -> Vec<Record> {
    let first = dice.below(16);
    let mut records = Vec::new();
    for (number, &has_cntt) in cntts.iter().enumerate() {
        let record = record(dice, ((first + 5 * number) % 16) as u8);
        let second_table = has_cntt.then(|| dice.pick(&CNTT_VALUES));
        records.push(with_cntt(record, second_table));
    }
    number_somehow(dice, &mut records);
    records
}

/// A body of the second edition of at most 165 bytes: two or three groups with one or two Ctb2s.
pub fn ctb2_family_body(dice: &mut Dice) -> Vec<u8> {
    let shapes: [&[usize]; 4] = [&[1, 1], &[0, 1, 0], &[2], &[1, 0]];
    let mut letters: Vec<u8> = (b'A'..=b'Z').collect();
    let mut body = Vec::new();
    for &count in dice.pick(&shapes) {
        let text = [letters.swap_remove(dice.below(letters.len()))];
        body.extend(Draft::new(&text, &ctb2::records(dice, count)).bytes());
    }
    body
}

/// A style file of a few sections around a small CASM.
pub fn family_file(dice: &mut Dice) -> Vec<u8> {
    let body = Draft::new(b"Main A", &[]).bytes();
    let track: Vec<u8> = (0..dice.below(5)).map(|_| dice.byte()).collect();
    let mut sections: Vec<([u8; 4], &[u8])> = vec![(*b"OTSc", b"ots"), (*b"FNRc", b"")];
    sections.insert(dice.below(3), (*b"CASM", &body));
    StyleDraft::new(&track, &sections).bytes()
}

/// Every truncation, then every byte changed to several values, none of them twice.
pub fn family(dice: &mut Dice, whole: &[u8]) -> Vec<Vec<u8>> {
    let mut list: Vec<Vec<u8>> = (0..whole.len())
        .map(|length| whole[..length].to_vec())
        .collect();
    let mut tried: Vec<Vec<u8>> = whole.iter().map(|&byte| vec![byte]).collect();
    for turn in 0..6 {
        for place in 0..whole.len() {
            let value = changed_byte(dice, whole[place], turn);
            if !tried[place].contains(&value) {
                tried[place].push(value);
                list.push(whole.to_vec());
                let last = list.len() - 1;
                list[last][place] = value;
            }
        }
    }
    list
}

fn changed_byte(dice: &mut Dice, byte: u8, turn: usize) -> u8 {
    match turn {
        0 => byte.wrapping_add(1),
        1 => byte ^ 0x80,
        2 => 0xFF,
        3 => 0x00,
        4 => 0x43,
        _ => dice.byte(),
    }
}

/// So many of a family, by chance.
pub fn sample_of(dice: &mut Dice, family: &[Vec<u8>], count: usize) -> Vec<Vec<u8>> {
    (0..count)
        .map(|_| family[dice.below(family.len())].clone())
        .collect()
}
