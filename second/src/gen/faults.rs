//! Faults of one group, each put at a spot of an otherwise sound draft: one for every refusal
//! 2, 6, 7, 8, 9, 10 and 11 and every kind of place that it can have.

use crate::bytes::{Tag, CASM, CNTT, CSEG, CTAB, SDEC};
use crate::gen::draft::{Chunk, Draft};
use crate::ranges::RANGES;

/// Puts a fault at the first (0), a middle (1) or the last (2) spot.
pub type Fault = Box<dyn Fn(&mut Draft, usize)>;

pub fn fault(put: impl Fn(&mut Draft, usize) + 'static) -> Fault {
    Box::new(put)
}

/// Lengths with high bytes set; sums with them must not wrap.
pub const GREAT_LENGTHS: [u32; 6] = [
    0xFFFF_FFF8,
    0x0100_0000,
    0x8000_0000,
    0x7FFF_FFFF,
    0xFFFF_FFFF,
    0xFFFF_FFF0,
];

/// The children of a first-edition group.
const CHILDREN: [Tag; 3] = [SDEC, CTAB, CNTT];

/// The faults that reach each refusal at each kind of place of a first-edition group.
pub fn principal() -> Vec<Fault> {
    let mut list = Vec::new();
    list.extend(group_headers());
    list.extend(child_cuts(&[1, 7]));
    list.extend(child_tags());
    list.extend(child_lengths(&CHILDREN));
    list.extend(own_lengths(CTAB, &[26, 28]));
    list.extend(own_lengths(CNTT, &[1, 3]));
    list.extend(texts(&principal_texts()));
    list.extend(bytes_just_outside());
    list.extend(cntt_bytes(&[(0, 0x10), (1, 0x05), (1, 0x8B)]));
    list.extend(channels());
    list
}

/// More of the same kinds, with other values.
pub fn further() -> Vec<Fault> {
    let mut list = Vec::new();
    list.extend(group_lengths());
    list.extend(payloads());
    list.extend(child_cuts(&[2, 4, 6]));
    list.extend(strange_tags());
    list.extend(great_child_lengths(&CHILDREN));
    list.extend(own_lengths(CTAB, &[0, 1, 54]));
    list.extend(own_lengths(CNTT, &[0, 4]));
    list.extend(texts(&further_texts()));
    list.extend(bytes_far_outside());
    let values = [0x00, 0x01, 0x02, 0x03, 0x0B, 0x7F, 0xFF];
    list.extend(cntt_bytes(&values.map(|value| (1, value))));
    list.extend(cntt_bytes(&[(0, 0xFF), (0, 0x7F)]));
    list
}

/// Group's tag wrong, group without payload, group length one too long or too short.
fn group_headers() -> Vec<Fault> {
    let mut list: Vec<Fault> = [*b"CSEg", *b"DSEG", SDEC, CASM]
        .into_iter()
        .map(|tag| fault(move |group, _| group.tag = tag))
        .collect();
    list.push(fault(|group, _| group.children.clear()));
    for change in [1i64, -1] {
        list.push(fault(move |group, _| {
            let length = group.payload().len() as i64;
            group.declared = Some((length + change) as u32);
        }));
    }
    list.push(fault(|group, _| group.declared = Some(GREAT_LENGTHS[0])));
    list
}

/// Group lengths with high bytes set, and others that end inside a child.
fn group_lengths() -> Vec<Fault> {
    let mut list: Vec<Fault> = GREAT_LENGTHS[1..]
        .iter()
        .map(|&length| fault(move |group, _| group.declared = Some(length)))
        .collect();
    list.push(fault(|group, _| {
        group.declared = Some(group.payload().len() as u32 | 0x0100_0000);
    }));
    for length in [0, 7, 8, 9, 16] {
        list.push(fault(move |group, _| group.declared = Some(length)));
    }
    list
}

/// A payload of 1 to 7 bytes.
fn payloads() -> Vec<Fault> {
    (1..=7)
        .map(|length| {
            fault(move |group, _| {
                group.children.clear();
                group.tail = b"Sdec\0\0\0"[..length].to_vec();
            })
        })
        .collect()
}

/// A child header that begins with a tag cut after so many bytes, behind the last of a tag.
pub fn cut(length: usize, after: Tag, start: Tag) -> Fault {
    fault(move |group, _| {
        if let Some(number) = group.spot(after, 2) {
            group.children.truncate(number + 1);
        }
        group.tail = [start, [0; 4]].concat()[..length].to_vec();
    })
}

/// A child header cut after so many bytes: behind the Sdec, the Ctabs and the Cntts.
fn child_cuts(lengths: &'static [usize]) -> Vec<Fault> {
    lengths
        .iter()
        .flat_map(|&length| {
            [
                cut(length, SDEC, CTAB),
                cut(length, CTAB, [0; 4]),
                cut(length, CNTT, CNTT),
            ]
        })
        .collect()
}

/// Children that are not allowed where they stand.
fn child_tags() -> Vec<Fault> {
    let mut list: Vec<Fault> = vec![
        fault(|group, _| drop(group.children.remove(0))),
        fault(|group, _| group.children.retain(|child| child.tag == CNTT)),
        fault(|group, _| group.children[0].tag = *b"sdec"),
        fault(|group, _| group.children[0].tag = CSEG),
        fault(|group, spot| insert_after(group, CNTT, Chunk::new(CTAB, &[0; 27]), spot)),
    ];
    for after in [SDEC, CTAB, CNTT] {
        for tag in [SDEC, CSEG, *b"Ctb3"] {
            list.push(fault(move |group, spot| {
                insert_after(group, after, Chunk::new(tag, b"Second"), spot);
            }));
        }
    }
    list
}

/// More children of strange tags.
fn strange_tags() -> Vec<Fault> {
    let mut list = Vec::new();
    for tag in [*b"ctab", *b"CNTT", CASM, [0; 4], [0xFF; 4]] {
        for after in [CTAB, CNTT] {
            list.push(fault(move |group, spot| {
                insert_after(group, after, Chunk::new(tag, &[0; 2]), spot);
            }));
        }
    }
    list
}

/// Puts a chunk behind a child of this tag, or at the end where there is none.
pub fn insert_after(group: &mut Draft, tag: Tag, chunk: Chunk, spot: usize) {
    let place = match group.spot(tag, spot) {
        Some(number) => number + 1,
        None => group.children.len(),
    };
    group.children.insert(place, chunk);
}

/// Child lengths past the group: by one and by some bytes of the next group; and one that
/// ends exactly with the group.
pub fn child_lengths(tags: &[Tag]) -> Vec<Fault> {
    let mut list = Vec::new();
    for &tag in tags {
        for over in [0, 1, 12] {
            list.push(fault(move |group, spot| {
                if let Some(number) = group.spot(tag, spot) {
                    let rest = group.rest_after_header(number);
                    group.children[number].declared = Some((rest + over) as u32);
                }
            }));
        }
    }
    list
}

/// Child lengths with high bytes set over the true ones.
pub fn great_child_lengths(tags: &[Tag]) -> Vec<Fault> {
    let mut list = Vec::new();
    for &tag in tags {
        for length in GREAT_LENGTHS {
            list.push(fault(move |group, spot| {
                if let Some(number) = group.spot(tag, spot) {
                    let true_length = group.children[number].payload.len() as u32;
                    group.children[number].declared = Some(length | true_length);
                }
            }));
        }
    }
    list
}

/// Children of a tag that are of another length than their own.
pub fn own_lengths(tag: Tag, lengths: &[usize]) -> Vec<Fault> {
    let resize = |&length: &usize| {
        fault(move |group, spot| {
            if let Some(number) = group.spot(tag, spot) {
                group.children[number].payload.resize(length, 0);
            }
        })
    };
    lengths.iter().map(resize).collect()
}

fn texts(texts: &[Vec<u8>]) -> Vec<Fault> {
    texts
        .iter()
        .cloned()
        .map(|text| fault(move |group, _| group.children[0].payload = text.clone()))
        .collect()
}

/// A text for each rule on one Sdec that can be broken.
pub fn principal_texts() -> Vec<Vec<u8>> {
    vec![
        Vec::new(),
        text_of_256(),
        b"Main\x1FA".to_vec(),
        b"Main\x7FA".to_vec(),
        b",Main A".to_vec(),
        b"Main A,".to_vec(),
        b"Main A,,Main B".to_vec(),
        b"Seventeen letters".to_vec(),
        b"Main A,Main A".to_vec(),
    ]
}

/// Broken rules at other places of the text.
pub fn further_texts() -> Vec<Vec<u8>> {
    vec![
        b",".to_vec(),
        b",,".to_vec(),
        b"\0".to_vec(),
        b"Main A\xFF".to_vec(),
        b"\x80Main A".to_vec(),
        b"Main A\0".to_vec(),
        b"Main A\n".to_vec(),
        b"Main A,Seventeen letters".to_vec(),
        b"Seventeen letters,Main A".to_vec(),
        b"Main A,Main B,Main A".to_vec(),
        b"A,B,C,D,B".to_vec(),
        b" , ".to_vec(),
        long_text(256),
        long_text(272),
        vec![b'x'; 256],
        [vec![b' '; 17], b",A".to_vec()].concat(),
    ]
}

/// A text of names of 15 bytes, all different, cut to a length.
pub fn long_text(length: usize) -> Vec<u8> {
    let names: Vec<String> = (0..20)
        .map(|number| format!("Long name   {number:03}"))
        .collect();
    names.join(",").as_bytes()[..length].to_vec()
}

/// A text of 256 bytes that breaks no other rule.
pub fn text_of_256() -> Vec<u8> {
    [b"x".to_vec(), long_text(255)].concat()
}

/// The first byte just out of its range, high and low side, at every index that has one.
fn bytes_just_outside() -> Vec<Fault> {
    let mut list = Vec::new();
    for (index, &(low, high)) in RANGES.iter().enumerate() {
        if high < 0xFF {
            list.push(ctab_byte(index, high + 1));
        }
        if low > 0 {
            list.push(ctab_byte(index, low - 1));
        }
    }
    list
}

/// Values far out of range at every index that has one.
fn bytes_far_outside() -> Vec<Fault> {
    let mut list = Vec::new();
    for (index, &(low, high)) in RANGES.iter().enumerate() {
        if high < 0xFF {
            list.push(ctab_byte(index, 0xFF));
        }
        if low > 0 {
            list.push(ctab_byte(index, 0));
        }
    }
    list
}

fn ctab_byte(index: usize, value: u8) -> Fault {
    child_byte(CTAB, index, value)
}

fn cntt_bytes(bytes: &[(usize, u8)]) -> Vec<Fault> {
    bytes
        .iter()
        .map(|&(index, value)| child_byte(CNTT, index, value))
        .collect()
}

pub fn child_byte(tag: Tag, index: usize, value: u8) -> Fault {
    fault(move |group, spot| {
        if let Some(number) = group.spot(tag, spot) {
            if let Some(byte) = group.children[number].payload.get_mut(index) {
                *byte = value;
            }
        }
    })
}

/// Refusals 10 and 11: channels that come twice or are missing.
fn channels() -> Vec<Fault> {
    vec![
        fault(|group, spot| copy_channel(group, CTAB, spot)),
        fault(|group, spot| copy_channel(group, CNTT, spot)),
        fault(|group, _| repeat_child(group, CNTT, 0)),
        fault(|group, _| repeat_child(group, CNTT, 1)),
        fault(|group, _| repeat_child(group, CNTT, 2)),
        fault(|group, spot| repeat_child(group, CTAB, spot)),
        fault(|group, spot| {
            if let Some(number) = group.spot(CNTT, spot) {
                set_channel(group, number, free_channel(group));
            }
        }),
        fault(|group, _| group.children.retain(|child| child.tag != CTAB)),
    ]
}

/// Gives a later child of a tag the channel of an earlier one.
pub fn copy_channel(group: &mut Draft, tag: Tag, spot: usize) {
    let numbers = group.numbers(tag);
    if numbers.len() > 1 {
        let (earlier, later) = match spot {
            0 => (numbers[0], numbers[1]),
            1 => (numbers[0], numbers[numbers.len() - 1]),
            _ => (numbers[numbers.len() - 2], numbers[numbers.len() - 1]),
        };
        if let Some(&channel) = group.children[earlier].payload.first() {
            set_channel(group, later, channel);
        }
    }
}

/// Sets the channel of a child, where it still has that byte.
fn set_channel(group: &mut Draft, number: usize, channel: u8) {
    if let Some(byte) = group.children[number].payload.first_mut() {
        *byte = channel;
    }
}

/// Puts a child a second time behind the last of its tag.
pub fn repeat_child(group: &mut Draft, tag: Tag, spot: usize) {
    if let Some(number) = group.spot(tag, spot) {
        let again = group.children[number].clone();
        insert_after(group, tag, again, 2);
    }
}

/// A source channel without a Ctab in the group, where there is one.
fn free_channel(group: &Draft) -> u8 {
    let taken: Vec<u8> = group
        .numbers(CTAB)
        .into_iter()
        .filter_map(|number| group.children[number].payload.first().copied())
        .collect();
    (0..16)
        .find(|channel| !taken.contains(channel))
        .unwrap_or(0)
}
