//! The catalogue of edit: sound edits, each refusal before the next, every byte at the bounds
//! of its range, any position, records of both editions, locks, and the catalogue of bodies.

use crate::body::read_body;
use crate::edition::{Edition, FIELDS};
use crate::gen::asks::{common_lists, over_bodies, sample, some_channel, NO_CHANNEL, NO_GROUP};
use crate::gen::bodies::{great_bodies, Bodies};
use crate::gen::cntts::{at_position, with_cntt};
use crate::gen::ctb2;
use crate::gen::ctb2_bodies::other;
use crate::gen::ctb2_lines;
use crate::gen::dice::Dice;
use crate::gen::locks::{self, some_override};
use crate::gen::mixed;
use crate::gen::positions::{some_position, ANY_POSITION};
use crate::gen::sound::{plain, record};
use crate::gen::spell::{body_line, rec, Line};
use crate::ranges::RANGES;
use crate::record::Record;

pub fn edit(dice: &mut Dice, bodies: &Bodies) -> Vec<Line> {
    let sample = sample(dice);
    let mut lines = edit_orders(dice, &sample);
    for body in &great_bodies()[..4] {
        lines.push(format!("edit {body} 0 0 {} 0", rec(&plain(0))).into());
    }
    let locks = locks::edit(&mut dice.aside());
    lines.extend(mixed(edit_bodies(dice, bodies), locks));
    lines.extend(ctb2_lines::edit(dice));
    for (index, &(low, high)) in RANGES[..FIELDS].iter().enumerate() {
        let mut values = vec![low, high];
        values.extend(low.checked_sub(1));
        values.extend(high.checked_add(1));
        for value in values {
            let mut new = plain(4);
            new[index] = value;
            lines.push(edit_line(&sample, 0, 4, &new));
        }
    }
    for position in ANY_POSITION {
        for (channel, second_table) in [(0, None), (4, Some(0x84)), (15, None)] {
            let new = with_cntt(record(dice, channel), second_table);
            let new = at_position(new, position);
            lines.push(edit_line(&sample, 0, channel, &new));
        }
    }
    lines
}

/// The catalogue of bodies, each with a new record for a channel that mostly is there; mostly of
/// the body's edition.
fn edit_bodies(dice: &mut Dice, bodies: &Bodies) -> Vec<Line> {
    over_bodies(dice, "edit", &common_lists(bodies), |dice, body| {
        let place = some_channel(dice, body);
        let channel = place
            .split(' ')
            .next_back()
            .and_then(|word| word.parse().ok());
        let groups = read_body(body).unwrap_or_default();
        let edition = groups.iter().find_map(|group| group.edition());
        let like = edition.unwrap_or(Edition::First);
        let new = match if dice.percent(90) { like } else { other(like) } {
            Edition::First => record(dice, channel.unwrap_or(0)),
            Edition::Second => ctb2::record(dice, channel.unwrap_or(0)),
        };
        let new = at_position(new, some_position(dice));
        let over = some_override(&mut dice.aside());
        format!("{place} {} {over}", rec(&new))
    })
}

/// An edit that asks to override, so that a lock by chance hides nothing.
pub fn edit_line(body: &[u8], group: u64, channel: u8, new: &Record) -> Line {
    edit_line_with(body, group, channel, new, "1")
}

/// An edit with this OVERRIDE.
pub fn edit_line_with(body: &[u8], group: u64, channel: u8, new: &Record, over: &str) -> Line {
    let tokens = format!("{group} {channel} {} {over}", rec(new));
    body_line("edit", body, &tokens)
}

/// Sound edits, and each refusal before the next: the body's, 16, 15, 16, 9.
fn edit_orders(dice: &mut Dice, sample: &[u8]) -> Vec<Line> {
    let mut lines = Vec::new();
    let bad = |channel: u8| {
        let mut record = plain(channel);
        record[9] = 0;
        record
    };
    for (group, channel) in [(0, 4), (0, 0), (0, 15), (2, 9)] {
        lines.push(edit_line(sample, group, channel, &record(dice, channel)));
        lines.push(edit_line(sample, group, channel, &plain(channel ^ 1)));
        lines.push(edit_line(sample, group, channel, &bad(channel)));
        lines.push(edit_line(sample, group, channel, &bad(channel ^ 1)));
        let bad_cntt = with_cntt(record(dice, channel), Some(0xFF));
        lines.push(edit_line(sample, group, channel, &bad_cntt));
    }
    for channel in NO_CHANNEL {
        lines.push(edit_line(sample, 0, channel, &plain(channel)));
        lines.push(edit_line(sample, 2, channel, &plain(3)));
    }
    lines.push(edit_line(sample, 1, 4, &bad(4)));
    for number in NO_GROUP {
        lines.push(edit_line(sample, number, 4, &plain(4)));
        lines.push(edit_line(sample, number, 77, &bad(5)));
    }
    let damaged = &sample[..sample.len() - 1];
    lines.push(edit_line(damaged, 99, 77, &bad(5)));
    lines.push(edit_line(damaged, 0, 4, &plain(4)));
    lines.push(edit_line(&[], 0, 4, &plain(4)));
    lines
}
