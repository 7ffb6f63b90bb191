//! Lines on what other editors return (document 02, §13): bodies that differ inside the record,
//! outside it, in their lengths and in all of these, and each refusal where it meets the next.

use crate::body::read_body;
use crate::bytes::HEADER;
use crate::edition::Edition;
use crate::gen::asks::{sample_of, NO_CHANNEL, NO_GROUP};
use crate::gen::bodies::{bodies as catalogue, great_bodies, many, named};
use crate::gen::cntts::{at_position, with_cntt};
use crate::gen::ctb2_bodies::{other, plain};
use crate::gen::dice::Dice;
use crate::gen::lookups::every_record;
use crate::gen::sound;
use crate::gen::spell::{spell, Line};
use crate::lookup::{find_channel, find_group};
use crate::record::{Record, LOCKED, READ_ONLY};
use crate::script::bytes;
use crate::write::group_bytes;
use std::ops::Range;

pub const BOTH: [Edition; 2] = [Edition::First, Edition::Second];

/// Of a hundred bodies of the catalogue so many are compared.
const FAULTS: usize = 40;

/// A group number and a source channel.
#[derive(Clone, Copy)]
pub struct Ask {
    pub number: u64,
    pub channel: u8,
}

pub fn ask(number: u64, channel: u8) -> Ask {
    Ask { number, channel }
}

/// Two bodies or two style files, and what is asked of them.
#[derive(Clone)]
pub struct Pair {
    pub before: Vec<u8>,
    pub after: Vec<u8>,
    pub asked: Ask,
}

impl Pair {
    /// The line that asks it by a verb.
    pub fn line(&self, verb: &str) -> Line {
        let Ask { number, channel } = self.asked;
        let (before, after) = (spell(&self.before), spell(&self.after));
        format!("{verb} {before} {after} {number} {channel}").into()
    }
}

pub fn pair(before: &[u8], after: &[u8], asked: Ask) -> Pair {
    Pair {
        before: before.to_vec(),
        after: after.to_vec(),
        asked,
    }
}

/// Where the record asked for stands in a readable body, if it is there.
fn record_of(body: &[u8], asked: Ask) -> Option<(Range<usize>, Edition)> {
    let number = u32::try_from(asked.number).ok()?;
    let (_, place) = find_channel(body, number, asked.channel).ok()?;
    let edition = find_group(body, number).ok()?.edition?;
    Some((place..place + edition.size(), edition))
}

/// Bytes that differ at one place only and can be read too, if there are any among some.
pub fn unlike_at(
    dice: &mut Dice,
    bytes: &[u8],
    place: usize,
    readable: fn(&[u8]) -> bool,
) -> Option<Vec<u8>> {
    let byte = bytes[place];
    let mut values = [
        byte ^ 1,
        byte ^ 0x80,
        byte.wrapping_add(1),
        byte ^ 6,
        byte ^ 0x20,
    ];
    let turn = dice.below(values.len());
    values.rotate_left(turn);
    values.into_iter().find_map(|value| {
        let mut unlike = bytes.to_vec();
        unlike[place] = value;
        readable(&unlike).then_some(unlike)
    })
}

/// A readable body that differs at one place only, if there is one among some.
fn unlike_body(dice: &mut Dice, body: &[u8], place: usize) -> Option<Vec<u8>> {
    unlike_at(dice, body, place, |body| read_body(body).is_ok())
}

/// The body with another sound record where one stands; mostly of the same source channel.
pub fn edited(dice: &mut Dice, body: &[u8], asked: Ask) -> Vec<u8> {
    let mut bytes = body.to_vec();
    if let Some((place, edition)) = record_of(body, asked) {
        let new = sound::records_of(dice, edition, 1);
        let fields = edition.fields();
        bytes[place.start..place.start + fields].copy_from_slice(new[0].bytes());
        if dice.percent(80) {
            bytes[place.start] = asked.channel;
        }
    }
    bytes
}

/// A group more at the end, the last one gone, or the last one with a longer text.
fn of_other_length(dice: &mut Dice, body: &[u8]) -> Vec<u8> {
    let groups = read_body(body).unwrap_or_default();
    let last = groups.last().map_or(body.len(), |group| group.place);
    match dice.below(4) {
        0 | 1 => [body, &named("One more")].concat(),
        2 => body[..last].to_vec(),
        _ => [&body[..last], &named("The last,now longer")].concat(),
    }
}

/// A body after some editor: unchanged, with another record, unlike at a place, of another length,
/// or more than one of these.
pub fn somehow_after(dice: &mut Dice, before: &[u8], asked: Ask) -> Vec<u8> {
    let mut after = before.to_vec();
    let kinds = dice.pick(&[0, 1, 1, 2, 2, 2, 3, 3, 4, 5, 6, 7]);
    if kinds & 1 != 0 {
        after = edited(dice, &after, asked);
    }
    if kinds & 2 != 0 {
        for _ in 0..30 {
            let place = dice.below(after.len().max(1));
            if let Some(unlike) = after
                .get(place)
                .and_then(|_| unlike_body(dice, &after, place))
            {
                after = unlike;
                break;
            }
        }
    }
    if kinds & 4 != 0 {
        after = of_other_length(dice, &after);
    }
    after
}

/// Readable bodies of an edition that end in a record, in a name, and in a Cntt where there is one.
fn bodies(dice: &mut Dice, edition: Edition) -> [Vec<u8>; 3] {
    let sample = sample_of(dice, edition);
    let last = with_cntt(plain(edition, 6), Some(0x84));
    let behind = group_bytes(b"Coda", &[at_position(last, 1)]);
    let in_name = [sample.clone(), named("Intro A,B")].concat();
    let in_cntt = [sample.clone(), behind].concat();
    [sample, in_name, in_cntt]
}

pub fn checked(dice: &mut Dice) -> Vec<Line> {
    let pairs = pairs(dice).into_iter();
    pairs.map(|pair| pair.line("checked")).collect()
}

/// Pairs of bodies, those of each kind in turn.
pub fn pairs(dice: &mut Dice) -> Vec<Pair> {
    let mut lists = vec![of_great_bodies(), of_one_length()];
    lists.push(of_faults(dice));
    lists.push(of_cntts(dice));
    for edition in BOTH {
        let bodies = bodies(dice, edition);
        lists.push(refusals(&bodies, edition));
        for body in &bodies {
            lists.push(of_lengths(dice, body));
        }
        lists.push(of_every_place(dice, &bodies[2]));
        lists.push(of_the_last_place(dice, &bodies));
        lists.push(of_the_record(dice, &bodies[0]));
        lists.push(beside_the_record(dice, &bodies[0]));
        lists.push(of_locks(dice, &bodies[0]));
        lists.push(of_one_channel(dice, edition));
        lists.push(of_moved_ends(dice, edition));
    }
    super::in_turn(lists)
}

/// Every place at which a readable body can be unlike, the record elsewhere and the same with it
/// changed too.
fn of_every_place(dice: &mut Dice, body: &[u8]) -> Vec<Pair> {
    let records = every_record(body);
    let mut pairs = Vec::new();
    for place in 0..body.len() {
        if let Some(unlike) = unlike_body(dice, body, place) {
            let (number, channel) = dice.pick(&records);
            let asked = ask(number, channel);
            pairs.push(pair(body, &unlike, asked));
            if dice.percent(30) {
                let both = edited(dice, &unlike, asked);
                pairs.push(pair(body, &both, asked));
            }
        }
    }
    pairs
}

/// The last byte of bodies, which is outside the record asked for, and inside the last one.
fn of_the_last_place(dice: &mut Dice, bodies: &[Vec<u8>]) -> Vec<Pair> {
    let mut pairs = Vec::new();
    for body in bodies {
        for (number, channel) in every_record(body) {
            if let Some(unlike) = unlike_body(dice, body, body.len() - 1) {
                pairs.push(pair(body, &unlike, ask(number, channel)));
            }
        }
    }
    pairs
}

/// Every byte of a record that can be another one, asked of that record and of one beside it; its
/// byte 0 among them, and two records that change places.
fn of_the_record(dice: &mut Dice, body: &[u8]) -> Vec<Pair> {
    let mut pairs = Vec::new();
    for (number, channel) in [(0, 0), (2, 9)] {
        let asked = ask(number, channel);
        let places = record_of(body, asked).map_or(0..0, |(places, _)| places);
        pairs.push(pair(body, body, asked));
        for place in places {
            if let Some(unlike) = unlike_body(dice, body, place) {
                pairs.push(pair(body, &unlike, asked));
                if dice.percent(25) {
                    pairs.push(pair(body, &unlike, ask(0, 4)));
                }
            }
        }
    }
    let found = [0, 15].map(|channel| record_of(body, ask(0, channel)));
    if let [Some((zero, _)), Some((fifteen, _))] = found {
        let mut turned = body.to_vec();
        turned.swap(zero.start, fifteen.start);
        for channel in [0, 15, 4] {
            pairs.push(pair(body, &turned, ask(0, channel)));
        }
    }
    pairs
}

/// The last byte before the record's chunk and the first that can be another one behind it.
fn beside_the_record(dice: &mut Dice, body: &[u8]) -> Vec<Pair> {
    let mut pairs = Vec::new();
    for (number, channel) in every_record(body) {
        let asked = ask(number, channel);
        let Some((record, _)) = record_of(body, asked) else {
            continue;
        };
        let before = unlike_body(dice, body, record.start - HEADER - 1);
        let behind = (record.end..body.len()).find_map(|place| unlike_body(dice, body, place));
        for unlike in before.into_iter().chain(behind) {
            pairs.push(pair(body, &unlike, asked));
            pairs.push(pair(body, &edited(dice, &unlike, asked), asked));
        }
    }
    pairs
}

/// Records that are read only in either body, in both or in none, and edited.
pub fn of_locks(dice: &mut Dice, body: &[u8]) -> Vec<Pair> {
    let mut pairs = Vec::new();
    for (number, channel) in every_record(body) {
        let asked = ask(number, channel);
        let Some((record, _)) = record_of(body, asked) else {
            continue;
        };
        let with = |lock: u8| {
            let mut bytes = body.to_vec();
            bytes[record.start + READ_ONLY] = lock;
            bytes
        };
        let [free, locked] = [0, LOCKED].map(with);
        for before in [&free, &locked] {
            for after in [&free, &locked, &edited(dice, body, asked)] {
                pairs.push(pair(before, after, asked));
            }
        }
    }
    pairs
}

/// Bodies of other lengths, alone and beside a difference before the end, in and outside the
/// record; either of the two may be the longer one.
fn of_lengths(dice: &mut Dice, body: &[u8]) -> Vec<Pair> {
    let mut pairs = Vec::new();
    let last = read_body(body).map_or(0, |groups| groups.last().map_or(0, |group| group.place));
    let longer = [body, &named("One more")].concat();
    let grown = [body, &group_bytes(b"New", &[]), &named("Newer")].concat();
    let front = [&named("In front"), body].concat();
    for (number, channel) in every_record(body) {
        let asked = ask(number, channel);
        for after in [&longer, &grown, &front, &body[..last].to_vec(), &Vec::new()] {
            pairs.push(pair(body, after, asked));
            pairs.push(pair(after, body, asked));
        }
        for place in [16, last + 16, body.len() - 1] {
            if let Some(unlike) = unlike_body(dice, &longer, place) {
                pairs.push(pair(body, &unlike, asked));
                pairs.push(pair(&unlike, body, asked));
            }
        }
        pairs.push(pair(body, &edited(dice, &longer, asked), asked));
        pairs.push(pair(&longer, &edited(dice, body, asked), asked));
    }
    pairs
}

/// Each refusal before the next: the before body's, the after body's, 16, 15; and 16 and 15 where
/// the after body has what is asked for, or where the two are unlike.
fn refusals(bodies: &[Vec<u8>], edition: Edition) -> Vec<Pair> {
    let body = &bodies[0];
    let cut = &body[..body.len() - 1];
    let mut bad = body.clone();
    bad[16] = 0x1F;
    let unlike = [
        body.clone(),
        group_bytes(b"Other", &[plain(other(edition), 4)]),
    ]
    .concat();
    let more = [body.clone(), group_bytes(b"More", &[plain(edition, 7)])].concat();
    let asks = [(0, 4), (3, 4), (0, 7), (1, 4), (3, 7), (4_294_967_295, 255)];
    let mut pairs = Vec::new();
    for (number, channel) in asks {
        let asked = ask(number, channel);
        for damaged in [cut, &bad, &unlike] {
            pairs.push(pair(damaged, body, asked));
            pairs.push(pair(body, damaged, asked));
            pairs.push(pair(damaged, damaged, asked));
            pairs.push(pair(&[], damaged, asked));
        }
        pairs.push(pair(cut, &bad, asked));
        pairs.push(pair(&bad, cut, asked));
        pairs.push(pair(body, body, asked));
        pairs.push(pair(body, &more, asked));
        pairs.push(pair(&more, body, asked));
        pairs.push(pair(body, &[], asked));
        pairs.push(pair(&[], body, asked));
        pairs.push(pair(&[], &[], asked));
    }
    let mut moved = body.clone();
    if let Some((record, _)) = record_of(body, ask(0, 0)) {
        moved[record.start] = 7;
    }
    for channel in NO_CHANNEL {
        pairs.push(pair(body, &moved, ask(0, channel)));
        pairs.push(pair(&moved, body, ask(0, channel)));
    }
    pairs.extend(NO_GROUP.map(|number| pair(body, &many(32), ask(number, 4))));
    pairs.push(pair(body, &many(33), ask(0, 4)));
    pairs.push(pair(&many(33), body, ask(0, 4)));
    pairs
}

/// A record of the same channel in each group, each of them edited and each asked for; and records
/// whose channels are the numbers of other ones.
fn of_one_channel(dice: &mut Dice, edition: Edition) -> Vec<Pair> {
    let group = |text: &[u8], channels: [u8; 3]| {
        group_bytes(text, &channels.map(|channel| plain(edition, channel)))
    };
    let texts_and_channels = [(b"A", [2, 0, 1]), (b"B", [1, 2, 0]), (b"C", [0, 1, 2])];
    let body = texts_and_channels.map(|(text, channels)| group(text, channels));
    let body = body.concat();
    let mut pairs = Vec::new();
    for (number, channel) in every_record(&body) {
        let asked = ask(number, channel);
        let after = edited(dice, &body, asked);
        pairs.push(pair(&body, &after, asked));
        pairs.push(pair(&body, &after, ask((number + 1) % 3, channel)));
        pairs.push(pair(&body, &after, ask(number, (channel + 1) % 3)));
    }
    pairs
}

/// Some of the bodies of the catalogue, which mostly are refused, each as either of the two and
/// beside another one.
fn of_faults(dice: &mut Dice) -> Vec<Pair> {
    let catalogue = catalogue(dice);
    let mut pairs = Vec::new();
    let mut last = Vec::new();
    let lists = [
        &catalogue.faults,
        &catalogue.second,
        &catalogue.meetings,
        &catalogue.editions,
    ];
    for body in lists.into_iter().flatten() {
        if body.len() < 1_000 && dice.percent(FAULTS) {
            let edition = sound::some_edition(dice);
            let sound = sample_of(dice, edition);
            let asked = dice.pick(&[ask(0, 4), ask(0, 7), ask(9, 4)]);
            pairs.push(pair(&sound, body, asked));
            pairs.push(pair(body, &sound, asked));
            pairs.push(pair(&last, body, asked));
            last = body.clone();
        }
    }
    pairs
}

/// Bodies at the limit and over it, as either of the two.
fn of_great_bodies() -> Vec<Pair> {
    let small = named("A");
    let mut pairs = Vec::new();
    for great in &great_bodies()[..4] {
        let great = bytes(great.as_bytes()).unwrap_or_default();
        pairs.push(pair(&great, &small, ask(0, 0)));
        pairs.push(pair(&small, &great, ask(9, 0)));
        pairs.push(pair(&great, &great, ask(0, 0)));
    }
    pairs
}

/// How many Ctabs and how many Cntts a group has, and how many of the one that is as long: Ctabs
/// alone, two more, and Ctb2s.
const CTABS_AS_LONG: [((u8, u8), u8); 4] =
    [((7, 7), 9), ((8, 7), 10), ((11, 7), 13), ((14, 7), 16)];
const CTB2S_AS_LONG: [((u8, u8), u8); 5] = [
    ((6, 1), 4),
    ((7, 3), 5),
    ((8, 5), 6),
    ((11, 0), 7),
    ((12, 2), 8),
];

/// Readable groups of one length and unlike chunks. So the first unlike place is in the tag of a
/// record, which mostly is the one asked for, or just behind it.
pub fn of_one_length() -> Vec<Pair> {
    let group = |edition, (count, cntts): (u8, u8)| {
        let records: Vec<Record> = (0..count)
            .map(|channel| {
                let value = (channel < cntts).then_some(0x84);
                let position = if channel < cntts { channel + 1 } else { 0 };
                at_position(with_cntt(plain(edition, channel), value), position)
            })
            .collect();
        group_bytes(b"A", &records)
    };
    let mut pairs = Vec::new();
    let mut put = |one: &[u8], two: &[u8], first_unlike: u8| {
        for number in [0, 2] {
            let [one, two] = [one, two].map(|group| [&many(number)[..], group].concat());
            for channel in [
                first_unlike,
                first_unlike.saturating_sub(1),
                first_unlike + 1,
            ] {
                pairs.push(pair(&one, &two, ask(number as u64, channel)));
                pairs.push(pair(&two, &one, ask(number as u64, channel)));
            }
        }
    };
    for (with_cntts, count) in CTABS_AS_LONG {
        let ctabs = group(Edition::First, (count, 0));
        put(&ctabs, &group(Edition::First, with_cntts), with_cntts.0);
    }
    for (with_cntts, count) in CTB2S_AS_LONG {
        let ctb2s = group(Edition::Second, (count, 0));
        put(&ctb2s, &group(Edition::First, with_cntts), 0);
    }
    pairs
}

/// Bodies of one length whose groups end elsewhere: a letter or a record that has gone from one
/// group to another, before the record asked for, behind it and around it.
pub fn of_moved_ends(dice: &mut Dice, edition: Edition) -> Vec<Pair> {
    let body = |texts: [&str; 3], channels: [&[u8]; 3]| -> Vec<u8> {
        let groups = texts.iter().zip(channels);
        groups
            .flat_map(|(text, channels)| {
                let records = channels.iter().map(|&channel| plain(edition, channel));
                group_bytes(text.as_bytes(), &records.collect::<Vec<Record>>())
            })
            .collect()
    };
    let own: [&[u8]; 3] = [&[4, 1], &[3], &[5, 4]];
    let before = body(["Main A", "B", "Ending"], own);
    let mut pairs = Vec::new();
    for after in [
        body(["Main", "B", "Ending A"], own),
        body(["Main A", "B in", "End"], own),
        body(["Main A2", "C", "Endin"], own),
        body(["Main A", "B", "Ending"], [&[4], &[1, 3], &[5, 4]]),
        body(["Main A", "B", "Ending"], [&[4, 1], &[], &[3, 5, 4]]),
    ] {
        for (number, channel) in every_record(&before) {
            let asked = ask(number, channel);
            pairs.push(pair(&before, &after, asked));
            if dice.percent(50) {
                pairs.push(pair(&before, &edited(dice, &after, asked), asked));
            }
        }
    }
    pairs
}

/// Cntts of another value, of the record asked for and of one beside it, alone and with the record
/// edited.
fn of_cntts(dice: &mut Dice) -> Vec<Pair> {
    let channels = [(3, 2), (1, 1), (9, 4), (6, 3)];
    let group = |value: u8, changed: u8| {
        let records = channels.map(|(channel, position)| {
            let value = if channel == changed { value } else { 0x84 };
            at_position(
                with_cntt(plain(Edition::First, channel), Some(value)),
                position,
            )
        });
        group_bytes(b"A", &records)
    };
    let body = group(0x84, 0);
    let mut pairs = Vec::new();
    for (changed, _) in channels {
        let after = group(dice.pick(&[0x04, 0x06, 0x8A, 0x80]), changed);
        for channel in [changed, changed, 3, 6] {
            let asked = ask(0, channel);
            pairs.push(pair(&body, &after, asked));
            pairs.push(pair(&body, &edited(dice, &after, asked), asked));
        }
    }
    pairs
}
