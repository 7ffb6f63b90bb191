//! The files that a seed begins with: one at least for every sentence of the tool for people, and
//! for each way in which the words of a body and of its entry differ.

use crate::bytes::{CNTT, CSEG, CTAB, CTB2, SDEC};
use crate::edition::Edition;
use crate::gen::bodies::{many, named};
use crate::gen::ctb2_bodies::plain;
use crate::gen::dice::Dice;
use crate::gen::draft::{cntt, record_chunk, Chunk, Draft, StyleDraft};
use crate::gen::file_drafts::{damaged, filled};
use crate::gen::tool_sound::{groups, style};
use crate::style::{BODY_LIMIT, FILE_LIMIT};

/// Every file of the catalogue.
pub fn files(dice: &mut Dice) -> Vec<Vec<u8>> {
    let mut list = vec![b"Dear library, the masters of the new set are on this disk.".to_vec()];
    let small = groups(dice, 2).concat();
    list.extend(damaged(&style(dice, &small)));
    list.push(StyleDraft::new(b"", &[]).bytes());
    list.push(filled(&small, FILE_LIMIT));
    list.push(filled(&small, FILE_LIMIT + 1));
    for body in bodies() {
        list.push(style(dice, &body).bytes());
    }
    list
}

fn bodies() -> Vec<Vec<u8>> {
    let mut list = vec![
        Vec::new(),
        vec![0x43; BODY_LIMIT],
        [named("A"), named("A")].concat(),
    ];
    list.extend(loose_ones());
    list.extend(group_headers());
    list.extend(counted());
    for edition in [Edition::First, Edition::Second] {
        list.extend(of_groups(edition));
    }
    list
}

/// Loose bytes before, between and behind groups, too few for a header and more; and behind a
/// group in which CSEG stands, where the entry does not tell the same.
fn loose_ones() -> Vec<Vec<u8>> {
    let (a, b, hidden) = (named("A"), named("B"), named("x,CSEG,y"));
    let mut list = Vec::new();
    for loose in [&b"1234567"[..], b"XSEG\0\0\0\0", &[0xFF; 65]] {
        list.push(loose.to_vec());
        list.push([loose, &a, &b].concat());
        list.push([&a[..], loose, &b].concat());
        list.push([&a[..], &b, loose].concat());
        list.push([&hidden[..], loose, &b].concat());
    }
    list.push([&a[..], &hidden, &b].concat());
    list.push([&hidden[..], &a, &a].concat());
    list
}

/// Group lengths past the next group, past the body and into the next group; headers cut by the
/// next one; groups with nothing in them, as a group and as a chunk of the one before.
fn group_headers() -> Vec<Vec<u8>> {
    let (a, b) = (named("A"), named("B"));
    let declared = |length: u32| [&CSEG[..], &length.to_be_bytes(), &a[8..]].concat();
    let true_length = a.len() as u32 - 8;
    let empty = [&CSEG[..], &[0; 4]].concat();
    let mut list = Vec::new();
    for length in [1_000_000, true_length + 1, true_length + 8, 0xFFFF_FFFF] {
        list.push([&declared(length)[..], &b].concat());
        list.push([&b[..], &declared(length)].concat());
        list.push([&declared(length)[..], &empty].concat());
        list.push([&declared(length)[..], &empty, &b].concat());
    }
    for cut in 1..8 {
        list.push([&a[..], &b[..cut]].concat());
        list.push([&b[..cut], &a].concat());
    }
    list.push([&a[..], &empty].concat());
    list.push([&empty[..], &a].concat());
    list
}

/// More groups than may be, groups of both editions, a part twice.
fn counted() -> Vec<Vec<u8>> {
    let one = |text: &[u8], edition| Draft::new(text, &[plain(edition, 3)]).bytes();
    let (first, second) = (one(b"F", Edition::First), one(b"S", Edition::Second));
    vec![
        many(32),
        many(33),
        [&many(32)[..], b"CSE"].concat(),
        [&many(32)[..], b"XSEG\0\0\0\0"].concat(),
        [&first[..], &second].concat(),
        [&second[..], &named("A"), &first].concat(),
        [&named("A,B")[..], &one(b"C,B,A", Edition::First)].concat(),
        [&named("\"A\"")[..], &named("B"), &named("\"A\"")].concat(),
    ]
}

type Change = fn(&mut Draft, Chunk);

/// Changes of a group of two records behind its Sdec; the chunk is one more of its kind.
const CHANGES: [Change; 17] = [
    |group, _| group.tail = b"Cta".to_vec(),
    |group, _| group.children[2].declared = Some(1_000),
    |group, _| group.children[0].declared = Some(0xFFFF_FFFF),
    |group, _| group.children[1].tag = *b"Ct\"\xFF",
    |group, _| group.children[1].tag = SDEC,
    |group, _| group.children[1].tag = CSEG,
    |group, _| drop(group.children.remove(0)),
    |group, _| group.children[1].payload.push(0),
    |group, _| group.children[2].payload.truncate(1),
    |group, _| group.children[2].payload.resize(1_234, 0),
    |group, _| group.children[0].payload = b"Main A,,B".to_vec(),
    |group, more| group.children.push(more),
    |group, _| group.children.push(cntt(3, 0x84)),
    |group, _| group.children.extend([cntt(3, 0x84), cntt(3, 0x84)]),
    |group, _| group.children.push(cntt(15, 0x84)),
    |group, _| group.children.push(Chunk::new(CNTT, &[3])),
    |group, _| {
        let other = if group.children[1].tag == CTAB {
            CTB2
        } else {
            CTAB
        };
        group.children.push(Chunk::new(other, &[0; 27]));
    },
];

/// Each refusal inside a group, between two sound ones; each byte out of its range.
fn of_groups(edition: Edition) -> Vec<Vec<u8>> {
    let sound = Draft::new(b"Main A", &[plain(edition, 3), plain(edition, 7)]);
    let between = |group: &Draft| [named("A"), group.bytes(), named("B")].concat();
    let mut list = vec![between(&sound)];
    for change in CHANGES {
        let mut group = sound.clone();
        change(&mut group, record_chunk(&plain(edition, 3)));
        list.push(between(&group));
    }
    for index in (0..edition.size()).filter(|index| !(1..9).contains(index)) {
        let mut group = sound.clone();
        group.children[2].payload[index] = 0xFF;
        list.push(between(&group));
    }
    for bytes in [[0x10, 0x84], [3, 0x05], [3, 0x8B]] {
        let mut group = sound.clone();
        group.children.push(Chunk::new(CNTT, &bytes));
        list.push(between(&group));
    }
    list
}
