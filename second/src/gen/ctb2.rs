//! Sound second-edition records (document 02, §4) by chance: any bounds of the middle notes, sets
//! under every rule, tables with and without bit 7, and any tail.

use crate::edition::{Edition, CTB2_BYTES};
use crate::gen::dice::Dice;
use crate::gen::sound::{self, some_limits};
use crate::ranges::{
    allowed, Allowed, BASS, GUITAR, HIGHEST_MIDDLE, HIGH_LIMIT, HIGH_SET, LOWEST_MIDDLE, LOW_LIMIT,
    LOW_SET, MIDDLE_SET, RULE, SET_BYTES, SHARED, TABLE, TAIL,
};
use crate::record::Record;

/// Where the three sets begin.
pub const SETS: [usize; 3] = [LOW_SET, MIDDLE_SET, HIGH_SET];

/// The tail that 000, 4.6.3.7, shows for most styles.
const USUAL_TAIL: [u8; 7] = [0, 0, 0, 0, 0x80, 0, 0];

/// Tables on both sides of each bound, under every rule and with bit 7.
pub const TABLE_BOUNDS: [u8; 16] = [
    0x00, 0x01, 0x02, 0x03, 0x09, 0x0A, 0x0B, 0x7F, 0x80, 0x81, 0x82, 0x83, 0x8A, 0x8B, 0x8F, 0xFF,
];

/// The record that catalogue lines start from: all in range, middle notes 48 to 72, plays always,
/// no folding; its tables suit every rule.
pub fn plain(channel: u8) -> Record {
    let mut bytes = [0; CTB2_BYTES];
    bytes[..SHARED].copy_from_slice(&sound::plain(channel)[..SHARED]);
    bytes[LOWEST_MIDDLE..LOW_SET].copy_from_slice(&[48, 72]);
    for (set, table) in SETS.into_iter().zip([0x01, 0x82, 0x02]) {
        bytes[set..set + SET_BYTES].copy_from_slice(&[0, table, 11, 0, 127, 3]);
    }
    bytes[TAIL..].copy_from_slice(&USUAL_TAIL);
    Record::Second(bytes)
}

/// A plain record of channel 3 with some bytes set.
pub fn with(changes: &[(usize, u8)]) -> Record {
    let mut record = plain(3);
    for &(index, value) in changes {
        record[index] = value;
    }
    record
}

/// A sound record by chance.
pub fn record(dice: &mut Dice, channel: u8) -> Record {
    let mut record = plain(channel);
    record[..SHARED].copy_from_slice(&sound::record(dice, channel)[..SHARED]);
    let (lowest, highest) = bounds(dice);
    record[LOWEST_MIDDLE] = lowest;
    record[HIGHEST_MIDDLE] = highest;
    for set in SETS {
        fill_set(dice, &mut record[set..set + SET_BYTES], set);
    }
    tail(dice, &mut record[TAIL..]);
    record
}

/// Bounds of the middle notes: all, some, one key, crossed, or at an end.
fn bounds(dice: &mut Dice) -> (u8, u8) {
    let lowest = dice.below(128) as u8;
    let highest = dice.below(128) as u8;
    match dice.below(10) {
        0 | 1 => (0, 127),
        2..=5 => (lowest.min(highest), lowest.max(highest)),
        6 => (lowest, lowest),
        7 | 8 => (lowest.max(highest), lowest.min(highest)),
        _ => dice.pick(&[(0, 0), (127, 127), (127, 0), (0, highest), (lowest, 127)]),
    }
}

/// A set's six bytes, in range; limits as a first-edition record has them.
fn fill_set(dice: &mut Dice, set: &mut [u8], start: usize) {
    for (field, byte) in set.iter_mut().enumerate() {
        if let Allowed::Within(low, high) = allowed(Edition::Second, start + field) {
            *byte = dice.between(usize::from(low), usize::from(high)) as u8;
        }
    }
    set[RULE] = dice.pick(&[0, 0, 0, 0, 0, 0, 1, 1, GUITAR, GUITAR]);
    set[TABLE] = some_table(dice, set[RULE]);
    if let Some((low, high)) = some_limits(dice) {
        set[LOW_LIMIT] = low;
        set[HIGH_LIMIT] = high;
    }
}

/// A table that suits a rule; often bypass, half of them with bit 7.
pub fn some_table(dice: &mut Dice, rule: u8) -> u8 {
    let highest = if rule == GUITAR { 0x02 } else { 0x0A };
    let table = dice.between(0, highest) as u8;
    let table = dice.pick(&[table, table, table, highest as u8, 0x00]);
    dice.pick(&[table, table | BASS])
}

/// The usual tail, any bytes, or one that looks like a tag.
fn tail(dice: &mut Dice, tail: &mut [u8]) {
    match dice.below(10) {
        0..=3 => (),
        4 => tail.copy_from_slice(&[0xFF; 7]),
        5 => {
            let start = dice.below(4);
            tail[start..start + 4].copy_from_slice(b"CSEG");
        }
        6 => tail.copy_from_slice(b"Ctb2\0\0\0"),
        _ => tail.iter_mut().for_each(|byte| *byte = dice.byte()),
    }
}

/// So many records of different source channels.
pub fn records(dice: &mut Dice, count: usize) -> Vec<Record> {
    let mut channels: Vec<u8> = (0..16).collect();
    (0..count.min(16))
        .map(|_| {
            let channel = channels.swap_remove(dice.below(channels.len()));
            record(dice, channel)
        })
        .collect()
}

/// Pairs of bytes that are bad together: the neighbours in and around a set, so that the first bad
/// byte is told from any other.
pub fn bad_pairs() -> Vec<[(usize, u8); 2]> {
    let around = |set: usize| (set - 1..set + SET_BYTES - 1).map(|index| [index, index + 1]);
    SETS.into_iter()
        .flat_map(around)
        .map(|pair| pair.map(|index| (index, 0xFF)))
        .collect()
}

/// Values at the bounds of what may stand at a byte, inside and outside.
pub fn bounds_of(index: usize) -> Vec<u8> {
    match allowed(Edition::Second, index) {
        Allowed::Table => TABLE_BOUNDS.to_vec(),
        Allowed::Within(low, high) => sound::bounds(low, high),
    }
}
