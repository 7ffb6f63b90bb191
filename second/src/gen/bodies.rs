//! The catalogue of bodies: faults in the first, a middle and the last group, Cntts in any order,
//! refusals that meet one another, limits met and passed by one, and sound bodies that look
//! damaged.

use crate::bytes::{CNTT, CSEG, CTAB, SDEC};
use crate::edition::Edition;
use crate::gen::cntts::with_cntt;
use crate::gen::ctb2_bodies;
use crate::gen::ctb2_faults;
use crate::gen::dice::Dice;
use crate::gen::draft::{body_bytes, cntt, record_chunk, Chunk, Draft};
use crate::gen::faults::{further, long_text, principal, text_of_256, Fault};
use crate::gen::positions::{number, number_somehow, ORDERS};
use crate::gen::sound::{
    full_group, plain, records, records_of, small_group, text_of_length, CNTT_VALUES,
};
use crate::gen::spell::spell_parts;
use crate::style::BODY_LIMIT;
use crate::write::{chunk, group_bytes};
use std::collections::HashSet;

/// The bodies that each verb on a body goes through, the most telling first.
pub struct Bodies {
    /// One body for each principal fault, at turning positions.
    pub faults: Vec<Vec<u8>>,
    /// The same for the second edition, and for Ctb2s beside Ctabs and Cntts.
    pub second: Vec<Vec<u8>>,
    /// The principal faults at the other two positions, and more of the second edition.
    pub moved: Vec<Vec<u8>>,
    /// More faults of the same kinds.
    pub further: Vec<Vec<u8>>,
    /// Groups of both editions in a body, and what only the second edition has.
    pub editions: Vec<Vec<u8>>,
    /// Cntts in any order, sound and with a fault behind them.
    pub orders: Vec<Vec<u8>>,
    pub meetings: Vec<Vec<u8>>,
    pub limits: Vec<Vec<u8>>,
    pub looks: Vec<Vec<u8>>,
}

pub fn bodies(dice: &mut Dice) -> Bodies {
    let (ctabs, ctb2s) = (principal(), ctb2_faults::principal());
    let beside = ctb2_faults::beside();
    let mut pass_by = |edition, faults: &[Fault], turn| pass(dice, edition, faults, turn);
    let faults = pass_by(Edition::First, &ctabs, 0);
    let mut second = pass_by(Edition::Second, &ctb2s, 0);
    second.extend(pass_by(Edition::First, &beside, 0));
    let mut moved = Vec::new();
    for turn in [1, 2] {
        moved.extend(pass_by(Edition::First, &ctabs, turn));
        moved.extend(pass_by(Edition::Second, &ctb2s, turn));
        moved.extend(pass_by(Edition::First, &beside, turn));
    }
    moved.extend(pass_by(Edition::Second, &ctb2_faults::further(), 0));
    let further = pass_by(Edition::First, &further(), 0);
    Bodies {
        faults,
        second,
        moved,
        further,
        editions: ctb2_bodies::bodies(dice),
        orders: orders(dice),
        meetings: meetings(),
        limits: limits(dice),
        looks: looks(dice),
    }
}

/// One body for each fault; three passes put it in every group and at every spot.
fn pass(dice: &mut Dice, edition: Edition, faults: &[Fault], pass: usize) -> Vec<Vec<u8>> {
    let numbered = faults.iter().enumerate();
    numbered
        .map(|(number, fault)| {
            let spot = number / 3 + pass;
            faulty_body(dice, edition, fault, number + pass, spot)
        })
        .collect()
}

/// A body of three groups with a fault in the first, middle or last one, at a spot of it.
fn faulty_body(
    dice: &mut Dice,
    edition: Edition,
    fault: &Fault,
    group: usize,
    spot: usize,
) -> Vec<u8> {
    let mut used = HashSet::new();
    let mut groups: Vec<Draft> = (0..3)
        .map(|_| small_group(dice, edition, &mut used))
        .collect();
    groups[group % 3] = full_group(dice, edition, &mut used);
    fault(&mut groups[group % 3], spot % 3);
    body_bytes(&groups)
}

/// A sound group of plain records with these channels, each with a Cntt.
fn channels(text: &str, channels: &[u8]) -> Draft {
    let records: Vec<_> = channels
        .iter()
        .map(|&channel| with_cntt(plain(channel), Some(0x81)))
        .collect();
    Draft::new(text.as_bytes(), &records)
}

/// Cntts in any order (document 02, §1): in every order of three, in each order of sixteen and
/// beside Ctabs that have none; then what stands behind Cntts that are not in Ctab order.
fn orders(dice: &mut Dice) -> Vec<Vec<u8>> {
    let mut list = Vec::new();
    for cntts in [
        [9, 8, 12],
        [9, 12, 8],
        [8, 9, 12],
        [8, 12, 9],
        [12, 9, 8],
        [12, 8, 9],
    ] {
        list.push(arranged("Main A", &[9, 8, 12], &cntts).bytes());
    }
    list.extend([
        arranged("Main A", &[9, 8, 12, 0], &[0, 9]).bytes(),
        arranged("Main A", &[9, 8, 12, 0], &[12, 8]).bytes(),
        arranged("Main A", &[15, 0], &[0, 15]).bytes(),
    ]);
    for order in ORDERS {
        let mut full = records(dice, 16);
        for record in &mut full {
            *record = with_cntt(*record, Some(dice.pick(&CNTT_VALUES)));
        }
        number(dice, &mut full, order);
        let some = arranged("Main B", &[3, 1, 2], &[1, 3]).bytes();
        list.push([some, group_bytes(b"Main A", &full)].concat());
    }
    list.extend(behind_cntts());
    list
}

/// A group of plain records with Ctabs and Cntts of these channels, in these orders.
fn arranged(text: &str, ctabs: &[u8], cntts: &[u8]) -> Draft {
    let records: Vec<_> = ctabs.iter().map(|&channel| plain(channel)).collect();
    let mut group = Draft::new(text.as_bytes(), &records);
    let values = CNTT_VALUES.iter().cycle().skip(ctabs.len());
    let chunks = cntts.iter().zip(values);
    group
        .children
        .extend(chunks.map(|(&channel, &value)| cntt(channel, value)));
    group
}

/// Each refusal that can stand at or behind Cntts which are not in Ctab order: in the first, a
/// middle and the last group in turn, and for a whole group in what follows it.
fn behind_cntts() -> Vec<Vec<u8>> {
    let sound = arranged("Main B", &[0, 5, 9], &[9, 5, 0]).bytes();
    let mut list: Vec<Vec<u8>> = spoilt_cntts()
        .iter()
        .enumerate()
        .map(|(turn, group)| match turn % 3 {
            0 => [group.bytes(), named("Main C")].concat(),
            1 => [named("Main A"), group.bytes(), sound.clone()].concat(),
            _ => [named("Main A"), arranged_first(), group.bytes()].concat(),
        })
        .collect();
    for after in [
        b"C".to_vec(),
        b"XSEG\0\0\0\0".to_vec(),
        b"CSEG\0\0\0\x01".to_vec(),
        b"CSEG\0\0\0\0".to_vec(),
        named(","),
        named("Main B"),
        [many(31), named("Late")].concat(),
    ] {
        list.push([sound.clone(), after].concat());
    }
    for (child, index, value) in [(2, 0, 3), (1, 9, 7), (2, 26, 1)] {
        let mut group = arranged("Main A", &[3, 4], &[4]);
        group.children[child].payload[index] = value;
        list.push([sound.clone(), group.bytes()].concat());
        group.children[child].payload.pop();
        list.push([sound.clone(), group.bytes()].concat());
    }
    list.push([named("Main B"), sound.clone()].concat());
    list.push([many(32), sound].concat());
    list
}

/// A sound group to stand before, its Cntts not in Ctab order.
fn arranged_first() -> Vec<u8> {
    arranged("Main C", &[2, 4], &[4, 2]).bytes()
}

/// Ctabs 0, 5 and 9 (children 1-3) and Cntts in another order with a fault: "Ctabs 0 5 9, Cntts
/// 9 5 9" is 10 at the third Cntt.
fn spoilt_cntts() -> Vec<Draft> {
    let group = |cntts: &[u8]| arranged("Main D", &[0, 5, 9], cntts);
    let mut list: Vec<Draft> = [
        &[9, 5, 9][..],
        &[9, 9, 5],
        &[5, 0, 5],
        &[9, 5, 0, 0],
        &[9, 5, 0, 5],
        &[9, 5, 0, 9],
        &[9, 5, 7],
        &[5, 0, 7, 7],
        &[9, 5, 0, 7],
        &[9, 0, 16],
        &[9, 0, 255, 9],
    ]
    .map(group)
    .into();
    let mut put = |change: &dyn Fn(&mut Draft)| {
        let mut group = group(&[9, 5, 0]);
        change(&mut group);
        list.push(group);
    };
    for value in [0x00, 0x05, 0x0B, 0x8B] {
        put(&|group| group.children[6].payload[1] = value);
    }
    put(&|group| group.children[6].payload = vec![9, 0x05]);
    put(&|group| group.children[6].payload = vec![7, 0x05]);
    for length in [0, 1, 3] {
        put(&|group| group.children[6].payload.resize(length, 0));
    }
    for length in [3, 0xFFFF_FFF8] {
        put(&|group| group.children[6].declared = Some(length));
    }
    for length in [1, 4, 7] {
        put(&|group| group.tail = b"Cntt\0\0\0"[..length].to_vec());
    }
    for tag in [SDEC, CSEG, *b"Ctb3"] {
        put(&|group| group.children.push(Chunk::new(tag, b"Second")));
    }
    put(&|group| group.children.push(record_chunk(&plain(3))));
    put(&|group| group.children.swap(3, 4));
    list
}

/// One group of nothing but an Sdec.
pub fn named(text: &str) -> Vec<u8> {
    group_bytes(text.as_bytes(), &[])
}

/// So many groups of one name each.
pub fn many(count: usize) -> Vec<u8> {
    (0..count)
        .flat_map(|number| named(&format!("Part {number}")))
        .collect()
}

/// Bodies where two refusals apply at once, for each adjacent pair in document 01's order.
fn meetings() -> Vec<Vec<u8>> {
    let mut list = vec![
        b"XSEG\0\0\0".to_vec(),
        b"CSEG\0\0\0".to_vec(),
        b"XSEG\xFF\xFF\xFF\xFF".to_vec(),
        [named("A"), b"XSEG\0\0\0\0".to_vec(), named("A")].concat(),
        [named("A"), named("A"), b"XSEG\0\0\0\0".to_vec()].concat(),
        [named("A"), named("A"), b"C".to_vec()].concat(),
    ];
    list.extend(count_meetings());
    list.extend(child_meetings());
    list.extend(record_meetings());
    list.extend(name_meetings());
    list
}

/// The 33rd group: its header before 12, 12 before its contents and before 13.
fn count_meetings() -> Vec<Vec<u8>> {
    let after = |last: &[u8]| [many(32), last.to_vec()].concat();
    vec![
        after(b"CSEG\0\0\0"),
        after(b"C"),
        after(b"XSEG\0\0\0\0"),
        after(b"CSEG\0\0\0\x01"),
        after(b"CSEG\xFF\xFF\xFF\xF8"),
        after(b"CSEG\0\0\0\0"),
        after(&chunk(CSEG, b"Sdec")),
        after(&chunk(CSEG, &chunk(SDEC, b","))),
        after(&named("Part 0")),
        [many(31), named("Part 0"), named("Late")].concat(),
        [many(31), b"CSEG\0\0\0\0".to_vec(), named("Late")].concat(),
    ]
}

/// In one child: header cut, tag, length past the group, own length, then the rest.
fn child_meetings() -> Vec<Vec<u8>> {
    let inside = |child: &[u8]| chunk(CSEG, &[chunk(SDEC, b"A"), child.to_vec()].concat());
    let bad = |length: usize| vec![0xFF; length];
    let past = |tag, length: u32, held: usize| {
        let mut bytes = Chunk::new(tag, &bad(held));
        bytes.declared = Some(length);
        bytes.bytes()
    };
    vec![
        inside(b"Xtab\0\0\0"),
        inside(b"Xtab\xFF\xFF\xFF\xFF"),
        inside(&past(CTAB, 28, 27)),
        inside(&past(CTAB, 27, 26)),
        inside(&past(CNTT, 3, 2)),
        inside(&past(CNTT, 2, 1)),
        inside(&chunk(CTAB, &bad(26))),
        inside(&chunk(CTAB, &bad(28))),
        inside(&chunk(CNTT, &bad(3))),
        inside(&chunk(CNTT, &bad(2))),
        chunk(CSEG, &past(SDEC, 256, 255)),
        chunk(CSEG, &past(SDEC, 1, 0)),
        chunk(CSEG, b"Xdec\0\0\0"),
        chunk(CSEG, b"Xdec\xFF\xFF\xFF\xFF"),
        chunk(CSEG, &[chunk(SDEC, b","), b"Xtab".to_vec()].concat()),
        [inside(&past(CTAB, 27, 26)), named("B"), named("C")].concat(),
    ]
}

/// Between children and inside one: 9 before 10 before 11, an earlier child before a later.
/// The group's children are an Sdec, Ctabs of channels 5, 2 and 9 (1-3), their Cntts (4-6).
fn record_meetings() -> Vec<Vec<u8>> {
    let sound = channels("A", &[5, 2, 9]);
    let set = |changes: &[(usize, usize, u8)]| {
        let mut group = sound.clone();
        for &(child, index, value) in changes {
            group.children[child].payload[index] = value;
        }
        group.bytes()
    };
    let mut list = vec![
        set(&[(2, 0, 5), (2, 25, 6)]),
        set(&[(2, 0, 5), (3, 9, 0)]),
        set(&[(1, 9, 0), (2, 0, 5)]),
        set(&[(1, 24, 0x80), (1, 11, 0x10)]),
        set(&[(1, 26, 1), (2, 0, 0x10)]),
        set(&[(5, 0, 0x10), (5, 1, 0x05)]),
        set(&[(5, 0, 5), (5, 1, 0x05)]),
        set(&[(5, 0, 7), (5, 1, 0x05)]),
        set(&[(4, 0, 7), (5, 1, 0x05)]),
        set(&[(5, 0, 5), (6, 0, 7)]),
        set(&[(4, 0, 7), (6, 0, 2)]),
        [set(&[(3, 25, 9)]), b"XSEG\0\0\0\0".to_vec()].concat(),
    ];
    for second in [5, 2, 9] {
        let mut group = sound.clone();
        group.children.push(cntt(second, 0x80));
        list.push(group.bytes());
        group.tail = b"Cnt".to_vec();
        list.push(group.bytes());
        group.reverse_cntts();
        list.push(group.bytes());
    }
    let mut group = sound.clone();
    group.children.push(record_chunk(&plain(5)));
    list.push(group.bytes());
    list
}

/// A group's own contents before 13; a name twice inside one Sdec before 13.
fn name_meetings() -> Vec<Vec<u8>> {
    let first = channels("Main A,Main B", &[1]).bytes();
    let mut bad = channels("Main B", &[3]);
    bad.children[1].payload[22] = 0x0C;
    vec![
        [first.clone(), bad.bytes()].concat(),
        [first.clone(), named("Main C"), named("Main B")].concat(),
        [first.clone(), named("Main C,Main A")].concat(),
        [first.clone(), named("Main C"), named("Main D,Main C")].concat(),
        [first.clone(), named("Main A,Main A")].concat(),
        [first.clone(), named("Main A"), named("Main B")].concat(),
        [
            first.clone(),
            named("Main"),
            named("Main A "),
            named("main a"),
        ]
        .concat(),
        [first.clone(), named("Main A,Main"), named("x"), named("y")].concat(),
        [named(" "), named("  "), named(" ")].concat(),
        [named("B"), named("A"), named("C"), named("A"), first].concat(),
    ]
}

/// Limits met and passed by one, short of the very long bodies.
fn limits(dice: &mut Dice) -> Vec<Vec<u8>> {
    let letters = |length: usize| vec![b'n'; length];
    let mut list = vec![
        Vec::new(),
        group_bytes(&long_text(255), &[]),
        group_bytes(&long_text(254), &[]),
        group_bytes(&text_of_256(), &[]),
        group_bytes(&letters(16), &[]),
        group_bytes(&letters(17), &[]),
        group_bytes(&[letters(16), b",".to_vec(), vec![b'o'; 16]].concat(), &[]),
        group_bytes(&[b"A,".to_vec(), letters(17)].concat(), &[]),
        group_bytes(
            &(0x20..0x7F).filter(|&b| b != b',').collect::<Vec<u8>>()[..16],
            &[],
        ),
        group_bytes(&one_byte_names(), &[]),
        many(31),
        many(32),
        many(33),
        [many(32), many(2)].concat(),
        group_bytes(b"Main A", &records(dice, 15)),
        group_bytes(b"Main A", &records(dice, 16)),
        seventeen(dice, 0x10).bytes(),
        seventeen(dice, 0x07).bytes(),
    ];
    for loose in 1..=8 {
        list.push([named("Main A"), b"CSEG\0\0\0\0"[..loose].to_vec()].concat());
        list.push(chunk(CSEG, &b"Sdec\0\0\0\0"[..loose]));
    }
    list
}

/// Ninety-four names of one byte each.
fn one_byte_names() -> Vec<u8> {
    let letters: Vec<u8> = (0x20..0x7F).filter(|&byte| byte != b',').collect();
    letters
        .iter()
        .map(|&byte| [byte])
        .collect::<Vec<_>>()
        .join(&b',')
}

/// Sixteen Ctabs and one more of this channel.
fn seventeen(dice: &mut Dice, channel: u8) -> Draft {
    let mut group = Draft::new(b"Main A", &records(dice, 16));
    let last = group.spot(CTAB, 2).unwrap_or(0);
    group
        .children
        .insert(last + 1, record_chunk(&plain(channel)));
    group
}

/// Sound bodies that hold CSEG, Ctab or great numbers where nobody should look for them.
fn looks(dice: &mut Dice) -> Vec<Vec<u8>> {
    let mut list: Vec<Vec<u8>> = ["CSEG", "xCSEG", "CSEGx", "CSEGCSEG", "Ctab", "A,CSEG,B"]
        .iter()
        .map(|text| channels(text, &[4, 1]).bytes())
        .collect();
    for offset in 0..5 {
        let mut record = plain(3);
        record[1 + offset..5 + offset].copy_from_slice(b"CSEG");
        list.push([named("Main A"), group_bytes(b"Main B", &[record])].concat());
    }
    let mut record = plain(3);
    record[1..9].copy_from_slice(b"Ctab\0\0\0\x1B");
    list.push(group_bytes(b"Main B", &[record, plain(4)]));
    record[13..18].copy_from_slice(b"\x03CSEG");
    list.push([group_bytes(b"Main B", &[record]), named("Main C")].concat());
    let text = seg_text();
    list.push(group_bytes(&text, &[plain(0)]));
    list.push([named("Main D"), group_bytes(&text, &[]), named("Main E")].concat());
    list.push(b"CSECSEG\0\0\0\x09Sdec\0\0\0\x01A".to_vec());
    list.push(
        [
            b"junk".to_vec(),
            named("A"),
            b"CSEGCSEG".to_vec(),
            named("B"),
        ]
        .concat(),
    );
    list.push([named("A"), b"CSE".to_vec(), named("B"), b"G".to_vec()].concat());
    list.extend(shortened(dice));
    list
}

/// A text of 67 bytes (43H) that begins with SEG, so that its length byte makes it CSEG.
pub fn seg_text() -> Vec<u8> {
    [b"SEG,".to_vec(), long_text(63)].concat()
}

/// Group lengths that end between two chunks: a sound group with fewer records, and a rest.
fn shortened(dice: &mut Dice) -> Vec<Vec<u8>> {
    let mut list = Vec::new();
    let group = full_group(dice, Edition::First, &mut HashSet::new());
    for keep in 1..group.children.len() {
        let mut short = group.clone();
        let kept: usize = short.children[..keep].iter().map(Chunk::size).sum();
        short.declared = Some(kept as u32);
        list.push([short.bytes(), named("After")].concat());
    }
    list
}

/// Bodies at and past the greatest length, spelled as BYTES.
pub fn great_bodies() -> Vec<String> {
    let group = named("A");
    let filled = |length: usize| spell_parts(&[(&group, 1), (&[0], length - group.len())]);
    let one_group = |declared: u32, held: usize| {
        let header = [CSEG, declared.to_be_bytes()].concat();
        spell_parts(&[(&header, 1), (&[0], held)])
    };
    let one_text = [CSEG, 0x7FF8u32.to_be_bytes(), SDEC, 0x7FF0u32.to_be_bytes()].concat();
    vec![
        spell_parts(&[(&[0], BODY_LIMIT)]),
        spell_parts(&[(&[0], BODY_LIMIT + 1)]),
        filled(BODY_LIMIT),
        filled(BODY_LIMIT + 1),
        spell_parts(&[(&CSEG, 8_192)]),
        spell_parts(&[(&CSEG, 8_192), (&[0x43], 1)]),
        one_group(0x7FF8, 0x7FF8),
        one_group(0x7FF9, 0x7FF8),
        one_group(0x7FF9, 0x7FF9),
        spell_parts(&[(&one_text, 1), (b"A", 0x7FF0)]),
        spell_parts(&[(&many(33), 1), (&[0], BODY_LIMIT)]),
        spell_parts(&[(&[0], 1_048_577)]),
    ]
}

/// The longest sound body: 32 groups of a full text, 16 Ctabs and 16 Cntts.
pub fn longest_sound(dice: &mut Dice) -> Vec<u8> {
    long_groups(dice, Edition::First, 32)
}

/// So many groups of a full text and 16 records, each of these with a Cntt where it can have one.
pub fn long_groups(dice: &mut Dice, edition: Edition, count: usize) -> Vec<u8> {
    let mut used = HashSet::new();
    let mut body = Vec::new();
    for _ in 0..count {
        let mut records = records_of(dice, edition, 16);
        for record in &mut records {
            *record = with_cntt(*record, Some(dice.pick(&CNTT_VALUES)));
        }
        number_somehow(dice, &mut records);
        let text = text_of_length(dice, 255, &mut used);
        body.extend(group_bytes(&text, &records));
    }
    body
}
