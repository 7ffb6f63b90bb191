//! Positions of Cntts (document 02, §1): right ones, the Cntts in Ctab order, by channel, reversed
//! or shuffled, and every kind of wrong ones; and the `write` lines of the catalogue with them.

use crate::gen::cntts::{at_position, has_cntt, position, with_cntt};
use crate::gen::dice::Dice;
use crate::gen::faults::long_text;
use crate::gen::sound::{record, records, CNTT_VALUES};
use crate::gen::spell::{write_line, Line};
use crate::record::Record;
use crate::write::group_bytes;

/// How the Cntts of a group stand.
#[derive(Clone, Copy)]
pub enum Order {
    Ctabs,
    Channels,
    Reversed,
    Shuffled,
}

pub const ORDERS: [Order; 4] = [
    Order::Ctabs,
    Order::Channels,
    Order::Reversed,
    Order::Shuffled,
];

/// Positions at the bounds of what is ever right, of a byte and of words of 16, 32 and 64 bits.
pub const ANY_POSITION: [u8; 14] = [0, 1, 2, 3, 15, 16, 17, 31, 33, 65, 127, 128, 238, 255];

/// Gives right positions: 0 to records without a Cntt, 1 to their number to the others.
pub fn number(dice: &mut Dice, records: &mut [Record], order: Order) {
    let mut rows: Vec<usize> = (0..records.len())
        .filter(|&row| has_cntt(&records[row]))
        .collect();
    match order {
        Order::Ctabs => (),
        Order::Channels => rows.sort_by_key(|&row| records[row].source_channel()),
        Order::Reversed => rows.reverse(),
        Order::Shuffled => shuffle(dice, &mut rows),
    }
    for record in records.iter_mut() {
        *record = at_position(*record, 0);
    }
    for (position, row) in (1..).zip(rows) {
        records[row] = at_position(records[row], position);
    }
}

/// Right positions in one of the orders.
pub fn number_somehow(dice: &mut Dice, records: &mut [Record]) {
    let order = dice.pick(&ORDERS);
    number(dice, records, order);
}

/// Any arrangement, each as likely as another.
pub fn shuffle<T>(dice: &mut Dice, list: &mut [T]) {
    for last in (1..list.len()).rev() {
        list.swap(last, dice.below(last + 1));
    }
}

/// Any position, at a bound or not.
pub fn some_position(dice: &mut Dice) -> u8 {
    let any = dice.byte();
    let low = dice.below(18) as u8;
    let bound = dice.pick(&ANY_POSITION);
    dice.pick(&[any, low, low, bound])
}

/// Wrong positions of records with a Cntt, each from its right one and their number.
type Moved = fn(u8, u8) -> u8;

const MOVED: [Moved; 28] = [
    // A gap: at the end, at the start, in the middle.
    |position, last| position + u8::from(position == last),
    |position, _| position + 1,
    |position, last| position + u8::from(position > last / 2),
    // Two records with one position: the first, the last, neighbours; all of them.
    |position, last| if position == last { 1 } else { position },
    |position, last| if position == 1 { last } else { position },
    |position, _| if position == 2 { 1 } else { position },
    |_, _| 1,
    |_, last| last,
    // Two with one position where the sum stays: 2 2 2, 1 1 4, and of four 1 1 4 4.
    |position, _| if position == 3 { 2 } else { position.max(2) },
    |position, last| match position {
        2 => 1,
        _ => position + u8::from(position == last),
    },
    |position, _| match position {
        2 => 1,
        3 => 4,
        _ => position,
    },
    // 0 with a Cntt: for the first, the last, all.
    |position, _| position - u8::from(position == 1),
    |position, last| if position == last { 0 } else { position },
    |_, _| 0,
    // Counted from 0.
    |position, _| position - 1,
    // Counted back from 0, and by twos.
    |position, last| last - position,
    |position, _| 2 * position,
    // Above 16, and what a word of bits would take for the right one.
    |position, last| if position == last { 16 } else { position },
    |position, last| if position == last { 17 } else { position },
    |position, _| position + 16 * u8::from(position == 1),
    |position, _| position + 32 * u8::from(position == 1),
    |position, _| position + 64 * u8::from(position == 1),
    |position, _| position + 128 * u8::from(position == 1),
    |position, _| position + 16,
    |position, _| position + 128,
    |position, last| if position == last { 255 } else { position },
    |position, _| if position == 1 { 255 } else { position },
    |position, _| 255 - position,
];

/// Wrong positions of a record without a Cntt, from the number of those with one: one that
/// another has, the next free one, and others.
const BARE: [fn(u8) -> u8; 8] = [
    |_| 1,
    |last| last,
    |last| last + 1,
    |last| last + 2,
    |_| 16,
    |_| 17,
    |_| 128,
    |_| 255,
];

/// Wrong positions of a whole table: by the Ctab's number, by the channel, every record numbered.
const MISREAD: [fn(usize, &Record) -> u8; 5] = [
    |row, record| position(record).min(1) * (row as u8 + 1),
    |row, _| row as u8 + 1,
    |_, record| position(record).min(1) * record[0],
    |_, record| position(record).min(1) * record[0].wrapping_add(1),
    |_, record| record[0],
];

/// How many of the records have a Cntt.
fn cntts(records: &[Record]) -> u8 {
    records.iter().filter(|record| has_cntt(record)).count() as u8
}

/// Makes right positions wrong in one way, where the records allow it.
fn moved(records: &mut [Record], change: Moved) {
    let last = cntts(records);
    for record in records.iter_mut().filter(|record| has_cntt(record)) {
        *record = at_position(*record, change(position(record), last));
    }
}

/// Gives a record without a Cntt a position: the first (0), the last (1) or each of them (2).
fn bare(records: &mut [Record], which: usize, wrong: fn(u8) -> u8) {
    let last = cntts(records);
    let mut without: Vec<&mut Record> = records
        .iter_mut()
        .filter(|record| !has_cntt(record))
        .collect();
    if which == 1 {
        without.reverse();
    }
    let most = if which == 2 { without.len() } else { 1 };
    for record in without.into_iter().take(most) {
        *record = at_position(*record, wrong(last));
    }
}

fn misread(records: &mut [Record], change: fn(usize, &Record) -> u8) {
    for (row, record) in records.iter_mut().enumerate() {
        *record = at_position(*record, change(row, record));
    }
}

/// Makes right positions wrong in some way, where the records allow it.
pub fn spoil(dice: &mut Dice, records: &mut [Record]) {
    match dice.below(10) {
        0..=4 => moved(records, dice.pick(&MOVED)),
        5..=7 => {
            let which = dice.below(3);
            bare(records, which, dice.pick(&BARE));
        }
        8 => misread(records, dice.pick(&MISREAD)),
        _ if records.is_empty() => (),
        _ => {
            let row = dice.below(records.len());
            records[row] = at_position(records[row], some_position(dice));
        }
    }
}

/// Three records with a Cntt each, and none by its channel's order.
fn three(dice: &mut Dice) -> Vec<Record> {
    with_cntts(dice, &[9, 0, 5], &[9, 0, 5])
}

/// Six records, three of them with a Cntt, none of these first or last.
fn six(dice: &mut Dice) -> Vec<Record> {
    with_cntts(dice, &[12, 3, 15, 1, 7, 2], &[3, 1, 7])
}

/// Records of these channels, with a Cntt for some of them.
fn with_cntts(dice: &mut Dice, channels: &[u8], cntts: &[u8]) -> Vec<Record> {
    channels
        .iter()
        .map(|&channel| {
            let record = record(dice, channel);
            let value = dice.pick(&CNTT_VALUES);
            with_cntt(record, cntts.contains(&channel).then_some(value))
        })
        .collect()
}

/// A `write` line of all records, with just enough room.
fn whole(records: &[Record]) -> Line {
    let room = group_bytes(b"Main A", records).len();
    write_line(b"Main A", records.len() as u64, room, records)
}

/// The catalogue of positions in writing.
pub fn write(dice: &mut Dice) -> Vec<Line> {
    let mut lines = right(dice);
    lines.extend(meetings(dice));
    lines.extend(wrong(dice));
    lines.extend(past_the_count(dice));
    lines
}

/// Right positions: every order of three, each order of more, of sixteen in a full group.
fn right(dice: &mut Dice) -> Vec<Line> {
    let mut lines = Vec::new();
    let mut few = three(dice);
    for positions in [
        [1, 2, 3],
        [1, 3, 2],
        [2, 1, 3],
        [2, 3, 1],
        [3, 1, 2],
        [3, 2, 1],
    ] {
        for (record, position) in few.iter_mut().zip(positions) {
            *record = at_position(*record, position);
        }
        lines.push(whole(&few));
    }
    for order in ORDERS {
        let mut some = six(dice);
        number(dice, &mut some, order);
        lines.push(whole(&some));
        let mut sixteen = records(dice, 16);
        for record in &mut sixteen {
            *record = with_cntt(*record, Some(dice.pick(&CNTT_VALUES)));
        }
        number(dice, &mut sixteen, order);
        lines.push(whole(&sixteen));
        let length = group_bytes(&long_text(255), &sixteen).len();
        for room in [length - 1, length, 2_048] {
            lines.push(write_line(&long_text(255), 16, room, &sixteen));
        }
    }
    lines
}

/// Every kind of wrong positions, alone.
fn wrong(dice: &mut Dice) -> Vec<Line> {
    let mut lines = Vec::new();
    for (turn, change) in MOVED.into_iter().enumerate() {
        let one = with_cntts(dice, &[6], &[6]);
        for mut table in [three(dice), six(dice), one] {
            number(dice, &mut table, ORDERS[turn % 4]);
            moved(&mut table, change);
            lines.push(whole(&table));
        }
    }
    for (turn, wrong) in BARE.into_iter().enumerate() {
        let none = with_cntts(dice, &[6, 2], &[]);
        for mut table in [six(dice), none] {
            number(dice, &mut table, ORDERS[turn % 4]);
            bare(&mut table, turn % 3, wrong);
            lines.push(whole(&table));
        }
    }
    for change in MISREAD {
        let mut table = six(dice);
        number(dice, &mut table, Order::Ctabs);
        misread(&mut table, change);
        lines.push(whole(&table));
    }
    lines
}

/// 18 where it meets 16, 8, 9 and 10 of an earlier and of a later record, and 14: after each of
/// them but the last.
fn meetings(dice: &mut Dice) -> Vec<Line> {
    let good = b"Main A";
    let sound = three(dice);
    let mut put = |spoilt: usize, position: u8, change: &dyn Fn(&mut [Record])| {
        let mut table = sound.clone();
        number(dice, &mut table, Order::Reversed);
        table[spoilt] = at_position(table[spoilt], position);
        change(&mut table);
        table
    };
    let mut lines = Vec::new();
    for (spoilt, position) in [(0, 2), (1, 0), (2, 255)] {
        let only = put(spoilt, position, &|_| ());
        let length = group_bytes(good, &only).len();
        lines.push(write_line(good, 4, length, &only));
        lines.push(write_line(b"", 3, length, &only));
        for room in [0, length - 1, length, 2_048] {
            lines.push(write_line(good, 3, room, &only));
        }
        for row in 0..3 {
            let changed: [Vec<Record>; 3] = [
                put(spoilt, position, &|table| table[row][9] = 0),
                put(spoilt, position, &|table| {
                    table[row] = with_cntt(table[row], Some(0x05))
                }),
                put(spoilt, position, &|table| {
                    table[row][0] = table[(row + 1) % 3][0]
                }),
            ];
            for table in changed {
                lines.push(write_line(good, 3, length, &table));
                lines.push(write_line(good, 3, 0, &table));
            }
        }
    }
    lines
}

/// Records past the count: right or wrong there, they take no number and are not looked at.
fn past_the_count(dice: &mut Dice) -> Vec<Line> {
    let mut lines = Vec::new();
    for order in ORDERS {
        let mut table = six(dice);
        table.extend(with_cntts(dice, &[10, 11], &[10, 11]));
        number(dice, &mut table, order);
        for count in 0..=9 {
            lines.push(write_line(b"Main A", count, 600, &table));
        }
        number(dice, &mut table[..6], order);
        for beyond in [[0, 0], [4, 5], [5, 4], [1, 1], [255, 17]] {
            table[6] = at_position(table[6], beyond[0]);
            table[7] = at_position(table[7], beyond[1]);
            for count in [6, 7, 8] {
                lines.push(write_line(b"Main A", count, 600, &table));
            }
        }
    }
    lines
}
