//! The catalogue of bodies with groups of both editions (document 02, §4): 21 alone and where it
//! meets another refusal, groups without records at every place, and what only the second edition
//! has: tails of any value, its longest groups, its own 9 before 10.

use crate::bytes::{CTB2, SDEC};
use crate::edition::Edition;
use crate::gen::bodies::{long_groups, many, named};
use crate::gen::ctb2;
use crate::gen::dice::Dice;
use crate::gen::draft::{record_chunk, Draft};
use crate::gen::faults::long_text;
use crate::gen::sound::{self, full_group, records_of};
use crate::ranges::{GUITAR, LOW_SET, MIDDLE_SET, TAIL};
use crate::record::Record;
use crate::write::group_bytes;
use std::collections::HashSet;

const BOTH: [Edition; 2] = [Edition::First, Edition::Second];

/// A plain record of an edition.
pub fn plain(edition: Edition, channel: u8) -> Record {
    match edition {
        Edition::First => sound::plain(channel),
        Edition::Second => ctb2::plain(channel),
    }
}

/// The edition that this one is not.
pub fn other(edition: Edition) -> Edition {
    match edition {
        Edition::First => Edition::Second,
        Edition::Second => Edition::First,
    }
}

/// A group of one plain record.
fn one(text: &str, edition: Edition) -> Vec<u8> {
    group_bytes(text.as_bytes(), &[plain(edition, 3)])
}

pub fn bodies(dice: &mut Dice) -> Vec<Vec<u8>> {
    let mut list = Vec::new();
    for edition in BOTH {
        list.extend(unlike(edition));
        list.extend(meetings(edition));
        list.extend(counted(edition));
    }
    list.extend(sound_ones(dice));
    list.extend(record_meetings());
    list.extend(tails());
    list.extend(limits(dice));
    list
}

/// Bodies with a group of another edition than the first one with records, behind groups without
/// records or between them; and bodies that differ from these in that group alone.
fn unlike(own: Edition) -> Vec<Vec<u8>> {
    let mut list = Vec::new();
    for last in [other(own), own] {
        let (a, b) = (one("A", own), one("B", last));
        let (empty, more) = (named("Main A"), named("Main B,Main C"));
        list.extend([
            [&a[..], &b].concat(),
            [&empty[..], &a, &b].concat(),
            [&a[..], &empty, &b].concat(),
            [&a[..], &b, &empty].concat(),
            [&empty[..], &more, &a, &b].concat(),
            [&empty[..], &a, &more, &b].concat(),
            [&a[..], &empty, &more, &b].concat(),
            [&a[..], &one("C", own), &b, &one("D", own)].concat(),
            [&a[..], &one("C", last), &one("D", own)].concat(),
        ]);
    }
    list.push([named("Main A"), one("A", own)].concat());
    list.push([one("A", own), named("Main A")].concat());
    list.push([named("A"), named("B"), one("C", own), named("D")].concat());
    list
}

/// 21 after the group's own contents, before its 13 and before the next group's header; and behind
/// an earlier group's 13.
fn meetings(own: Edition) -> Vec<Vec<u8>> {
    let (first, unlike) = (one("A,B", own), one("C", other(own)));
    let then = |last: &[u8]| [&first[..], last].concat();
    let mut list = vec![
        then(&one("A", other(own))),
        then(&one("C,B", other(own))),
        then(&one("A", own)),
        then(&one("C,C", other(own))),
        then(&[named("A"), unlike.clone()].concat()),
        then(&[named("C"), unlike.clone()].concat()),
        then(&[unlike.clone(), named("A")].concat()),
        then(&[unlike.clone(), unlike.clone()].concat()),
    ];
    for next in [
        &b"C"[..],
        b"XSEG\0\0\0\0",
        b"CSEG\0\0\0\x01",
        b"CSEG\0\0\0\0",
    ] {
        list.push(then(&[&unlike[..], next].concat()));
        list.push(then(next));
    }
    let records = [plain(other(own), 1), plain(other(own), 2)];
    let sound = Draft::new(b"A,B", &records);
    let mut put = |change: &dyn Fn(&mut Draft)| {
        let mut group = sound.clone();
        change(&mut group);
        list.push(then(&group.bytes()));
    };
    put(&|group| group.children[2].payload[9] = 0);
    put(&|group| group.children[1].payload[25] = 0xFF);
    put(&|group| group.children[2].payload[0] = 1);
    put(&|group| group.children[2].payload.truncate(26));
    put(&|group| group.children[2].tag = SDEC);
    put(&|group| group.children[2].tag = plain(own, 0).edition().tag());
    put(&|group| group.children[0].payload.push(b','));
    put(&|group| group.tail = b"Ctb".to_vec());
    put(&|group| group.children[2].declared = Some(0x0100_0000));
    put(&|group| group.declared = Some(0xFFFF_FFF8));
    put(&|group| group.tag = *b"CSEg");
    list
}

/// 12 before 21: the 33rd group of another edition, and the 32nd, with and without a header behind.
fn counted(own: Edition) -> Vec<Vec<u8>> {
    let unlike = one("Late", other(own));
    let of = |before: usize, last: &[u8]| [one("A", own), many(before), last.to_vec()].concat();
    vec![
        of(31, &unlike),
        of(30, &unlike),
        of(30, &one("Late", own)),
        of(30, &[unlike.clone(), named("Later")].concat()),
        of(30, &[one("Late", own), one("Later", other(own))].concat()),
        of(31, &[unlike.clone(), b"C".to_vec()].concat()),
        [many(31), unlike.clone(), named("Later")].concat(),
        [many(31), unlike].concat(),
    ]
}

/// Sound bodies of second-edition groups by chance: one record, several, sixteen.
fn sound_ones(dice: &mut Dice) -> Vec<Vec<u8>> {
    let mut list = Vec::new();
    for counts in [&[1][..], &[2, 0], &[0, 3, 1], &[16], &[1, 1, 1, 1], &[5, 2]] {
        let mut used = HashSet::new();
        let mut body = Vec::new();
        for &count in counts {
            let text = sound::text(dice, 2, &mut used);
            body.extend(group_bytes(&text, &ctb2::records(dice, count)));
        }
        list.push(body);
    }
    for _ in 0..3 {
        let mut used = HashSet::new();
        let mut groups = BOTH.map(|edition| full_group(dice, edition, &mut used).bytes());
        list.push(groups.concat());
        groups.reverse();
        list.push(groups.concat());
    }
    list
}

/// Between Ctb2s and inside one: the first bad byte, 9 before 10, an earlier child before a later;
/// a set's table by its own rule. The group's children are an Sdec and Ctb2s 5, 2 and 9 (1-3).
fn record_meetings() -> Vec<Vec<u8>> {
    let sound = Draft::new(b"A", &[5, 2, 9].map(ctb2::plain));
    let set = |changes: &[(usize, usize, u8)]| {
        let mut group = sound.clone();
        for &(child, index, value) in changes {
            group.children[child].payload[index] = value;
        }
        group.bytes()
    };
    let (low, middle) = (LOW_SET, MIDDLE_SET);
    let mut list = vec![
        set(&[(2, 0, 5), (2, 39, 6)]),
        set(&[(2, 0, 5), (3, 9, 0)]),
        set(&[(1, 9, 0), (2, 0, 5)]),
        set(&[(1, 38, 0x80), (1, 11, 0x10)]),
        set(&[(3, 46, 0xFF), (2, 0, 0x10)]),
        set(&[(1, low, 3), (1, low + 1, 0x0B)]),
        set(&[(1, low, 3), (1, low + 1, 0x0A)]),
        set(&[(1, low, GUITAR), (1, low + 1, 0x0A)]),
        set(&[(1, low, GUITAR), (1, middle + 1, 0x0A)]),
        set(&[(2, middle, GUITAR), (2, low + 1, 0x8A)]),
        set(&[(2, middle, GUITAR), (2, 35, 0x8A)]),
        set(&[(3, 34, GUITAR), (3, low + 1, 0x0A), (3, middle + 1, 0x88)]),
        set(&[(3, 34, GUITAR), (3, 35, 0x82)]),
        set(&[(3, 34, 1), (3, 35, 0x83)]),
        set(&[(1, 20, 127), (1, 21, 0)]),
        set(&[(1, 20, 0x80), (1, 21, 0x80)]),
        [set(&[(3, 39, 9)]), b"XSEG\0\0\0\0".to_vec()].concat(),
    ];
    for (turn, [first, second]) in ctb2::bad_pairs().into_iter().enumerate() {
        let child = 1 + turn % 3;
        list.push(set(&[
            (child, first.0, first.1),
            (child, second.0, second.1),
        ]));
    }
    for again in [5, 2, 9] {
        let mut group = sound.clone();
        group.children.push(record_chunk(&ctb2::plain(again)));
        list.push(group.bytes());
        group.tail = b"Ctb".to_vec();
        list.push(group.bytes());
    }
    list
}

/// Tails of any value, CSEG at each place of them and in the other places of a Ctb2.
fn tails() -> Vec<Vec<u8>> {
    let in_group = |change: &dyn Fn(&mut Record)| {
        let mut record = ctb2::plain(3);
        change(&mut record);
        let group = group_bytes(b"Main B", &[ctb2::plain(8), record, ctb2::plain(1)]);
        [named("Main A"), group, one("Main C", Edition::Second)].concat()
    };
    let mut list = Vec::new();
    for start in TAIL..TAIL + 4 {
        list.push(in_group(&|record| {
            record[start..start + 4].copy_from_slice(b"CSEG")
        }));
    }
    for start in [1, 5, 14] {
        list.push(in_group(&|record| {
            record[start..start + 4].copy_from_slice(b"CSEG")
        }));
    }
    for tail in [
        *b"\xFF\xFF\xFF\xFF\xFF\xFF\xFF",
        *b"CSECSEG",
        *b"Ctb2\0\0\0",
        *b"Cntt\0\0\0",
    ] {
        list.push(in_group(&|record| record[TAIL..].copy_from_slice(&tail)));
    }
    for index in TAIL..TAIL + 7 {
        list.push(in_group(&|record| record[index] = 0xFF));
        list.push(in_group(&|record| record[index] = 0x01));
    }
    list
}

/// Full groups and a Ctb2 too many, group lengths that end between two Ctb2s, and the longest
/// groups: 28 fit into a body, 29 are over its limit.
fn limits(dice: &mut Dice) -> Vec<Vec<u8>> {
    let mut list = vec![
        group_bytes(&long_text(255), &ctb2::records(dice, 16)),
        group_bytes(b"Main A", &ctb2::records(dice, 15)),
    ];
    for channel in [0x10, 0x07] {
        let mut group = Draft::new(b"Main A", &ctb2::records(dice, 16));
        group.children.push(record_chunk(&ctb2::plain(channel)));
        list.push(group.bytes());
    }
    let group = full_group(dice, Edition::Second, &mut HashSet::new());
    for keep in 1..group.children.len() {
        let mut short = group.clone();
        let kept: usize = short.children[..keep].iter().map(|c| c.size()).sum();
        short.declared = Some(kept as u32);
        list.push([short.bytes(), named("After")].concat());
    }
    for count in [28, 29] {
        list.push(long_groups(dice, Edition::Second, count));
    }
    let mut used = HashSet::new();
    let most: Vec<u8> = (0..32)
        .flat_map(|_| {
            let text = sound::text(dice, 1, &mut used);
            group_bytes(&text, &records_of(dice, Edition::Second, 2))
        })
        .collect();
    list.push(most);
    let mut tagged = Draft::new(b"Main A", &[sound::plain(3)]);
    tagged.children[1].tag = CTB2;
    list.push(tagged.bytes());
    list
}
