//! Lines on read only records (document 02, §6): edits of locked records with and without
//! override, key presses on them, and 22 where it meets each other refusal.

use crate::edition::Edition;
use crate::gen::asks::{NO_CHANNEL, NO_GROUP};
use crate::gen::broken::OVERRIDES;
use crate::gen::ctb2;
use crate::gen::ctb2_bodies::{other, plain};
use crate::gen::dice::Dice;
use crate::gen::edits::edit_line_with;
use crate::gen::records::screen_line;
use crate::gen::sound;
use crate::gen::spell::Line;
use crate::ranges::{allowed, Allowed};
use crate::record::{Record, LOCKED, READ_ONLY};
use crate::write::group_bytes;

const BOTH: [Edition; 2] = [Edition::First, Edition::Second];

/// Values of byte 10 that are out of range, and so lock nothing.
const UNSOUND: [u8; 6] = [0x02, 0x03, 0x10, 0x80, 0x81, 0xFF];

/// `0` or `1`.
pub fn some_override(dice: &mut Dice) -> &'static str {
    dice.pick(&["0", "1"])
}

/// A value of byte 10, mostly one that does not lock.
pub fn some_lock(dice: &mut Dice) -> u8 {
    let any = dice.byte();
    let unsound = dice.pick(&UNSOUND);
    dice.pick(&[0, 0, 0, 0, 0, LOCKED, LOCKED, 0x02, unsound, any])
}

/// The record with this byte 10.
fn with_lock(mut record: Record, lock: u8) -> Record {
    record[READ_ONLY] = lock;
    record
}

pub fn unlocked(record: Record) -> Record {
    with_lock(record, 0)
}

pub fn locked(record: Record) -> Record {
    with_lock(record, LOCKED)
}

/// A sound record by chance.
pub fn some_record(dice: &mut Dice, edition: Edition, channel: u8) -> Record {
    match edition {
        Edition::First => sound::record(dice, channel),
        Edition::Second => ctb2::record(dice, channel),
    }
}

/// Three groups: channels 4 and 15 locked around 0, none, then 9 and a locked 0. So a lock stands
/// beside each free record, and channel 0 is free in one group and locked in another.
pub fn sample(edition: Edition) -> Vec<u8> {
    let plain = |channel: u8| plain(edition, channel);
    let first = [locked(plain(4)), plain(0), locked(plain(15))];
    [
        group_bytes(b"Main A,Main B", &first),
        group_bytes(b"Ending A", &[]),
        group_bytes(b"Fill In AA", &[plain(9), locked(plain(0))]),
    ]
    .concat()
}

/// The groups and source channels of that body, and whether each is locked.
pub const STANDING: [(u64, u8, bool); 5] = [
    (0, 4, true),
    (0, 0, false),
    (0, 15, true),
    (2, 9, false),
    (2, 0, true),
];

pub fn edit(dice: &mut Dice) -> Vec<Line> {
    let mut lines = Vec::new();
    for edition in BOTH {
        let sample = sample(edition);
        for (group, channel, lock) in STANDING {
            for new in new_records(dice, edition, channel, lock) {
                for over in ["0", "1"] {
                    lines.push(edit_line_with(&sample, group, channel, &new, over));
                }
            }
        }
        lines.extend(before_22(edition, &sample));
        for over in OVERRIDES {
            let new = plain(edition, 4);
            lines.push(edit_line_with(&sample, 0, 4, &new, over));
        }
    }
    lines
}

/// What stands in the body; sound records that clear, set or keep a lock; ones with a bad byte
/// before 10, at 10 and behind it; ones of another edition, of another source channel, of both.
pub fn new_records(dice: &mut Dice, edition: Edition, channel: u8, lock: bool) -> Vec<Record> {
    let own = plain(edition, channel);
    let unlike = plain(other(edition), channel);
    let bad = |mut record: Record, index: usize| {
        record[index] = 0xFF;
        record
    };
    let moved = |record: Record| {
        let mut record = record;
        record[0] ^= 1;
        record
    };
    let some = some_record(dice, edition, channel);
    vec![
        with_lock(own, u8::from(lock)),
        with_lock(own, u8::from(!lock)),
        unlocked(some),
        locked(some),
        bad(own, 9),
        bad(locked(own), 19),
        with_lock(own, 0x02),
        with_lock(own, 0xFF),
        unlike,
        bad(locked(unlike), 9),
        moved(own),
        bad(moved(locked(own)), 9),
        moved(unlike),
    ]
}

/// The refusals that come before it on a body with locks: the body's own, 16 and 15.
fn before_22(edition: Edition, sample: &[u8]) -> Vec<Line> {
    let new = locked(plain(edition, 4));
    let damaged = &sample[..sample.len() - 1];
    let mut lines = vec![
        edit_line_with(damaged, 0, 4, &new, "0"),
        edit_line_with(sample, NO_GROUP[0], 4, &new, "0"),
        edit_line_with(sample, 1, 4, &new, "0"),
        edit_line_with(sample, 2, 4, &new, "0"),
    ];
    for channel in NO_CHANNEL {
        lines.push(edit_line_with(sample, 0, channel, &new, "0"));
    }
    lines
}

/// A value that may stand at a byte, and one that may not where there is one.
fn values(edition: Edition, index: usize) -> Vec<u8> {
    match allowed(edition, index) {
        Allowed::Table => vec![0x01, 0x0B],
        Allowed::Within(low, high) if high < 0xFF => vec![low, high + 1],
        Allowed::Within(low, _) => vec![low],
    }
}

pub fn screen(dice: &mut Dice) -> Vec<Line> {
    let mut lines = Vec::new();
    for edition in BOTH {
        let some = locked(some_record(dice, edition, 3));
        for value in [0, LOCKED, 0x02, 0x80, 0xFF] {
            lines.push(screen_line(&some, READ_ONLY as u64, value));
        }
        for index in 0..edition.fields() {
            for value in values(edition, index) {
                lines.push(screen_line(&some, index as u64, value));
            }
        }
        for index in [26, 46, 47, 48, 255, 4_294_967_295] {
            lines.push(screen_line(&some, index, 0));
        }
        lines.extend(same_value(&some));
        lines.extend(unsound(edition));
        lines.extend(of_a_broken_one(edition));
    }
    lines
}

/// Presses that would change nothing.
fn same_value(record: &Record) -> Vec<Line> {
    let indices = [0, 1, 9, READ_ONLY, 11, 18, 25];
    indices
        .map(|index| screen_line(record, index as u64, record[index]))
        .into()
}

/// Byte 10 out of range locks nothing: values that may stand at a byte and ones that may not.
fn unsound(edition: Edition) -> Vec<Line> {
    let mut lines = Vec::new();
    for lock in UNSOUND {
        let record = with_lock(plain(edition, 3), lock);
        for index in [0, 9, 25] {
            for value in values(edition, index) {
                lines.push(screen_line(&record, index as u64, value));
            }
        }
        for value in [0, LOCKED, lock] {
            lines.push(screen_line(&record, READ_ONLY as u64, value));
        }
    }
    lines
}

/// A lock on a record whose other bytes are all out of range.
fn of_a_broken_one(edition: Edition) -> Vec<Line> {
    let mut record = plain(edition, 3);
    record[..].fill(0xEE);
    let record = locked(record);
    let mut lines = Vec::new();
    for index in [0, 1, READ_ONLY, 11, 25] {
        for value in [0, 0xEE] {
            lines.push(screen_line(&record, index as u64, value));
        }
    }
    lines
}
