//! Faults of one group that the second edition (document 02, §4) makes possible, each put at a
//! spot of an otherwise sound draft: of a group of Ctb2s, and of one where a Ctb2 stands beside a
//! Ctab or Cntt.

use crate::bytes::{CNTT, CSEG, CTAB, CTB2, SDEC};
use crate::edition::{Edition, CTAB_BYTES, CTB2_BYTES};
use crate::gen::ctb2::{self, SETS};
use crate::gen::draft::{cntt, record_chunk, Chunk, Draft};
use crate::gen::faults::{
    child_byte, child_lengths, copy_channel, cut, fault, great_child_lengths, insert_after,
    own_lengths, repeat_child, Fault,
};
use crate::gen::sound;
use crate::ranges::{allowed, Allowed, GUITAR};

/// The faults that reach each refusal at each kind of place of a group of Ctb2s.
pub fn principal() -> Vec<Fault> {
    let mut list = vec![cut(1, CTB2, CTB2), cut(7, CTB2, CTB2), cut(7, SDEC, CTB2)];
    list.extend(tags());
    list.extend(child_lengths(&[CTB2]));
    list.extend(own_lengths(
        CTB2,
        &[CTB2_BYTES - 1, CTB2_BYTES + 1, CTAB_BYTES],
    ));
    list.extend(bytes_outside(|_, high| high + 1));
    list.push(child_byte(CTB2, 9, 7));
    list.extend(tables(&[
        (0, 0x0B),
        (1, 0x8B),
        (GUITAR, 0x03),
        (GUITAR, 0x83),
    ]));
    list.push(fault(|group, spot| copy_channel(group, CTB2, spot)));
    list.push(fault(|group, spot| repeat_child(group, CTB2, spot)));
    list
}

/// More of the same kinds, with other values.
pub fn further() -> Vec<Fault> {
    let mut list = vec![cut(4, CTB2, CTB2), cut(6, CTB2, CTAB), cut(4, CTB2, CNTT)];
    list.extend(great_child_lengths(&[CTB2]));
    list.extend(own_lengths(CTB2, &[0, 1, 2, 26, 54, 94]));
    list.extend(bytes_outside(|_, _| 0xFF));
    list.extend(bytes_outside(|_, high| high | 0x80));
    list.extend(tables(&[
        (0, 0x7F),
        (1, 0x0B),
        (0, 0x8B),
        (1, 0xFF),
        (GUITAR, 0x0A),
        (GUITAR, 0x8A),
        (GUITAR, 0xFF),
    ]));
    list
}

/// Children that are not allowed where they stand among Ctb2s; a Cntt before them is 11.
fn tags() -> Vec<Fault> {
    let of_own_channel = |group: &Draft, spot: usize| {
        let number = group.spot(CTB2, spot);
        number.and_then(|number| group.children[number].payload.first().copied())
    };
    let mut list: Vec<Fault> = vec![
        fault(|group, spot| insert_after(group, CTB2, record_chunk(&sound::plain(3)), spot)),
        fault(|group, spot| insert_after(group, SDEC, record_chunk(&sound::plain(3)), spot)),
        fault(move |group, spot| {
            let channel = of_own_channel(group, spot).unwrap_or(0);
            insert_after(group, CTB2, cntt(channel, 0x81), spot);
        }),
        fault(move |group, spot| {
            let channel = of_own_channel(group, spot).unwrap_or(0);
            insert_after(group, CTB2, cntt(channel, 0x81), 2);
        }),
        fault(move |group, spot| {
            let channel = of_own_channel(group, spot).unwrap_or(0);
            insert_after(group, SDEC, cntt(channel, 0x81), spot);
        }),
        fault(|group, spot| {
            if let Some(number) = group.spot(CTB2, spot) {
                group.children[number].tag = CTAB;
            }
        }),
        fault(|group, _| drop(group.children.remove(0))),
    ];
    for tag in [SDEC, CSEG, *b"Ctb3", *b"CTB2", *b"ctb2"] {
        list.push(fault(move |group, spot| {
            insert_after(group, CTB2, Chunk::new(tag, b"Second"), spot);
        }));
    }
    list
}

/// A byte of a Ctb2 outside its range, at every index that has one; the tables left out.
fn bytes_outside(value: fn(u8, u8) -> u8) -> Vec<Fault> {
    (0..CTB2_BYTES)
        .filter_map(|index| match allowed(Edition::Second, index) {
            Allowed::Within(low, high) if high < 0xFF => {
                Some(child_byte(CTB2, index, value(low, high)))
            }
            _ => None,
        })
        .collect()
}

/// Each of the three tables out of range under its rule, the other two as they stand.
fn tables(pairs: &[(u8, u8)]) -> Vec<Fault> {
    let mut list: Vec<Fault> = Vec::new();
    for &(rule, table) in pairs {
        for set in SETS {
            list.push(fault(move |group, spot| {
                child_byte(CTB2, set, rule)(group, spot);
                child_byte(CTB2, set + 1, table)(group, spot);
            }));
        }
    }
    list
}

/// A Ctb2 beside the Ctabs and Cntts of a first-edition group: before them, between and behind;
/// and Ctabs that are a Ctb2 in their tag or in their length alone.
pub fn beside() -> Vec<Fault> {
    let mut list: Vec<Fault> = Vec::new();
    for after in [SDEC, CTAB, CNTT] {
        for chunk in [
            record_chunk(&ctb2::plain(3)),
            Chunk::new(CTB2, &[0xFF; CTAB_BYTES]),
        ] {
            list.push(fault(move |group, spot| {
                insert_after(group, after, chunk.clone(), spot);
            }));
        }
    }
    list.extend(own_lengths(CTAB, &[CTB2_BYTES]));
    list.push(fault(|group, spot| {
        if let Some(number) = group.spot(CTAB, spot) {
            group.children[number].tag = CTB2;
        }
    }));
    list
}
