//! Laws that hold of every answer, checked on generated scripts by means of their own.

mod common;

use common::answered::answered;
use common::chunks::{edition, groups, names, of_tag, records};
use common::{entries_of, plain_record};
use second::body::{read_body, read_group};
use second::calls::answer;
use second::check::{check, check_files, Checked};
use second::edit::edit;
use second::edition::Edition;
use second::gen::cntts::{at_position, position};
use second::gen::ctb2;
use second::gen::dice::Dice;
use second::gen::draft::StyleDraft;
use second::gen::positions::shuffle;
use second::gen::sound;
use second::gen::spell::spell;
use second::lookup::{find_channel, find_part};
use second::place::place_note;
use second::plays::who_plays;
use second::record::{First, Record};
use second::script::{bytes, number, record, show_bytes, show_record};
use second::style::find;
use second::voice::voice_name;
use second::write::write_group;

/// The bodies of generated lines, up to a size that a strict body can have.
fn some_bodies(verb: &'static str, seed: u64, count: usize) -> Vec<Vec<u8>> {
    answered(verb, seed, count)
        .iter()
        .map(|(parts, _)| bytes(&parts[1]).unwrap())
        .filter(|body| body.len() <= 32_768)
        .collect()
}

/// Where the groups of an accepted body stand, by their lengths alone.
fn group_slices(body: &[u8]) -> Vec<&[u8]> {
    let mut slices = Vec::new();
    let mut rest = body;
    while !rest.is_empty() {
        let length = 8 + u32::from_be_bytes(rest[4..8].try_into().unwrap()) as usize;
        slices.push(&rest[..length]);
        rest = &rest[length..];
    }
    slices
}

const EMPTY: Record = Record::First(First {
    bytes: [0x5A; 26],
    second_table: Some(0x5A),
    position: 0x5A,
});

/// Whether the Cntts of these records do not stand as their Ctabs do.
fn in_another_order(records: &[Record]) -> bool {
    let with_cntt = records
        .iter()
        .filter(|record| record.second_table().is_some());
    !with_cntt.map(position).is_sorted()
}

#[test]
fn reading_and_writing_back_gives_the_same_bytes() {
    let (mut seen, mut another_order, mut second) = (0, 0, 0);
    for body in some_bodies("body", 21, 5_000) {
        let Ok(groups) = read_body(&body) else {
            continue;
        };
        let slices = group_slices(&body);
        assert_eq!(groups.len(), slices.len());
        for (number, slice) in slices.iter().enumerate() {
            let mut table = [EMPTY; 16];
            let (count, text) = read_group(&body, number as u32, &mut table).unwrap();
            assert!(table[count..].iter().all(|record| *record == EMPTY));
            let mut buffer = vec![0x77; slice.len() + 3];
            let length = write_group(text, &table, count as u32, &mut buffer);
            assert_eq!(length, Ok(slice.len()));
            assert_eq!(&buffer[..slice.len()], *slice);
            assert_eq!(&buffer[slice.len()..], [0x77; 3]);
            seen += 1;
            another_order += u32::from(in_another_order(&table[..count]));
            second += u32::from(count > 0 && table[0].edition() == Edition::Second);
        }
    }
    assert!(seen > 2_000, "{seen}");
    assert!(another_order > 200, "{another_order}");
    assert!(second > 400, "{second}");
}

/// 21 at a place exactly where all before it reads, the group there reads by itself and has records,
/// and the first earlier group with records is of the other edition; a body that reads has one
/// edition.
#[test]
fn another_edition_is_21_and_no_other() {
    let mut seen = [0; 2];
    for (parts, words) in answered("body", 45, 9_000) {
        let body = bytes(&parts[1]).unwrap();
        let editions = |bytes: &[u8]| -> Vec<usize> {
            let groups = groups(bytes);
            groups
                .iter()
                .map(|(_, children)| edition(children))
                .collect()
        };
        let one_edition =
            |bytes: &[u8]| !(editions(bytes).contains(&1) && editions(bytes).contains(&2));
        if words[0] == "ok" {
            assert!(one_edition(&body));
            seen[0] += 1;
        } else if words[1] == "21" {
            let place: usize = words[2].parse().unwrap();
            let before = &body[..place];
            let alone = group_slice(&body, place);
            assert!(read_body(before).is_ok() && read_body(alone).is_ok());
            let earlier = editions(before).into_iter().find(|&edition| edition > 0);
            let own = editions(alone)[0];
            assert_eq!(earlier.map(|earlier| earlier + own), Some(3));
            seen[1] += 1;
        }
    }
    assert!(seen[0] > 2_000 && seen[1] > 80, "{seen:?}");
}

/// The group at a place of a body, by its length alone.
fn group_slice(body: &[u8], place: usize) -> &[u8] {
    let length = u32::from_be_bytes(body[place + 4..place + 8].try_into().unwrap());
    &body[place..place + 8 + length as usize]
}

/// The records, the count and the answer of each `write` line whose count the table has.
fn writes(seed: u64, count: usize) -> Vec<(Vec<Record>, Vec<String>)> {
    answered("write", seed, count)
        .into_iter()
        .filter(|(_, words)| words[0] == "ok" || words[1] != "16")
        .map(|(parts, words)| {
            let count = number(&parts[2]).unwrap() as usize;
            let records = parts[4..4 + count]
                .iter()
                .map(|part| record(part).unwrap())
                .collect();
            (records, words)
        })
        .collect()
}

#[test]
fn writing_and_reading_back_gives_the_same_records() {
    let (mut seen, mut another_order) = (0, 0);
    for (records, words) in writes(41, 8_000) {
        if words[0] != "ok" {
            continue;
        }
        let length: usize = words[1].parse().unwrap();
        let buffer = bytes(words[2].as_bytes()).unwrap();
        let mut table = [EMPTY; 32];
        let (count, _) = read_group(&buffer[..length], 0, &mut table).unwrap();
        assert_eq!(table[..count], records[..]);
        seen += 1;
        another_order += u32::from(in_another_order(&records));
    }
    assert!(seen > 1_500, "{seen}");
    assert!(another_order > 300, "{another_order}");
}

/// Whether every position that should be there is, and nothing else: counted one by one.
fn positions_right(records: &[Record]) -> bool {
    let of = |cntt: bool| {
        records
            .iter()
            .filter(move |r| r.second_table().is_some() == cntt)
    };
    let most = of(true).count();
    let once = |wanted: usize| {
        let having = of(true).filter(|record| usize::from(position(record)) == wanted);
        having.count() == 1
    };
    (1..=most).all(once) && of(false).all(|record| position(record) == 0)
}

/// 18 exactly where no earlier refusal is and the positions are wrong, whatever the room.
#[test]
fn wrong_positions_are_18_and_no_other() {
    let mut seen = [0; 2];
    for (records, words) in writes(42, 8_000) {
        if words[0] == "refused" && words[1] != "14" && words[1] != "18" {
            continue;
        }
        let right = positions_right(&records);
        assert_eq!(words[0] == "refused" && words[1] == "18", !right);
        assert!(right || words[2] == "0");
        seen[usize::from(right)] += 1;
    }
    assert!(seen[0] > 400 && seen[1] > 2_000, "{seen:?}");
}

/// The groups of sound generated bodies, each alone, with its number of Cntts.
fn sound_groups(seed: u64) -> Vec<(Vec<u8>, usize)> {
    let mut list = Vec::new();
    for body in some_bodies("body", seed, 9_000) {
        if read_body(&body).is_ok() {
            for (group, children) in groups(&body) {
                let cntts = of_tag(&children, b"Cntt").len();
                list.push((body[group.place..group.end()].to_vec(), cntts));
            }
        }
    }
    list
}

/// A group with its Cntts, which stand at its end, in another order.
fn rearranged(group: &[u8], order: &[usize]) -> Vec<u8> {
    let start = group.len() - 10 * order.len();
    let cntts = order.iter().map(|row| &group[start + 10 * row..][..10]);
    let mut bytes = group[..start].to_vec();
    cntts.for_each(|cntt| bytes.extend(cntt));
    bytes
}

/// Any rearrangement of a group's Cntts is accepted, with the same records but for positions.
#[test]
fn cntts_may_stand_in_any_order() {
    let mut dice = Dice::new(43);
    let mut seen = 0;
    for (group, cntts) in sound_groups(43) {
        let mut order: Vec<usize> = (0..cntts).collect();
        shuffle(&mut dice, &mut order);
        let other = rearranged(&group, &order);
        let (mut before, mut after) = ([EMPTY; 16], [EMPTY; 16]);
        let told = read_group(&group, 0, &mut before).unwrap();
        assert_eq!(read_group(&other, 0, &mut after).unwrap(), told);
        for (old, new) in before[..told.0].iter().zip(&after[..told.0]) {
            let now = match position(old) {
                0 => 0,
                was => {
                    let was = usize::from(was) - 1;
                    order.iter().position(|&row| row == was).unwrap() as u8 + 1
                }
            };
            assert_eq!(*new, at_position(*old, now));
        }
        let part = told.1.split(|&byte| byte == b',').next().unwrap();
        for record in &before[..told.0] {
            let channel = record[0];
            assert_eq!(
                voice_name(&group, 0, channel),
                voice_name(&other, 0, channel)
            );
            let (root, chord_type) = (channel % 12, channel + 7);
            assert_eq!(
                who_plays(&group, part, root, chord_type),
                who_plays(&other, part, root, chord_type)
            );
        }
        seen += u32::from(group != other);
    }
    assert!(seen > 300, "{seen}");
}

/// Placing and editing answer alike whatever the position, and a key press keeps it.
#[test]
fn only_writing_reads_positions() {
    let mut dice = Dice::new(44);
    for (verb, spot) in [("place", 1), ("edit", 4), ("screen", 1)] {
        for (mut parts, words) in answered(verb, 44, 1_500) {
            let given = record(&parts[spot]).unwrap();
            let given = at_position(given, dice.byte());
            parts[spot] = show_record(&given).into_bytes();
            let again = answer(&parts.join(&b' '));
            let mut again: Vec<String> = again.split(' ').map(str::to_string).collect();
            if verb == "screen" {
                let last = again.len() - 1;
                let shown = record(again[last].as_bytes()).unwrap();
                assert_eq!(position(&shown), position(&given));
                let old = record(words[last].as_bytes()).unwrap();
                again[last] = show_record(&at_position(shown, position(&old)));
            }
            assert_eq!(again, words);
        }
    }
}

#[test]
fn salvage_covers_every_byte_once_in_order() {
    for body in some_bodies("salvage", 22, 4_000) {
        let mut next = 0;
        for (place, length, _) in entries_of(&body) {
            assert_eq!(place, next);
            assert!(length > 0);
            next += length;
        }
        assert_eq!(next, body.len());
    }
}

#[test]
fn an_entry_is_kind_0_exactly_when_it_reads_strictly_as_one_group() {
    let mut kinds = [0; 12];
    for body in some_bodies("salvage", 23, 4_000) {
        for (place, length, kind) in entries_of(&body) {
            let alone = read_body(&body[place..place + length]);
            let one_group = alone.as_ref().is_ok_and(|groups| groups.len() == 1);
            assert_eq!(kind == 0, one_group);
            if kind != 0 {
                assert_eq!(
                    alone.unwrap_err().number,
                    strict_number(&body, place, length, kind)
                );
            }
            kinds[usize::from(kind)] += 1;
        }
    }
    assert!(
        [0, 2, 6, 7, 8, 9, 10, 11]
            .iter()
            .all(|&kind| kinds[kind] > 5),
        "{kinds:?}"
    );
}

/// What a damaged entry alone is refused with: its kind, or for loose bytes a cut header.
fn strict_number(body: &[u8], place: usize, length: usize, kind: u8) -> u8 {
    let loose = !body[place..].starts_with(b"CSEG");
    if loose && length < 8 {
        2
    } else {
        kind
    }
}

#[test]
fn every_cseg_begins_an_entry() {
    for body in some_bodies("salvage", 24, 3_000) {
        let entries = entries_of(&body);
        let stands: Vec<usize> = (0..body.len())
            .filter(|&place| body[place..].starts_with(b"CSEG"))
            .collect();
        let begun: Vec<usize> = entries
            .iter()
            .map(|entry| entry.0)
            .filter(|&place| body[place..].starts_with(b"CSEG"))
            .collect();
        assert_eq!(stands, begun);
    }
}

#[test]
fn an_accepted_body_without_stray_cseg_lists_as_its_groups() {
    let mut seen = 0;
    for body in some_bodies("body", 25, 4_000) {
        let slices = match read_body(&body) {
            Ok(_) => group_slices(&body),
            Err(_) => continue,
        };
        let tags = body.windows(4).filter(|window| window == b"CSEG").count();
        if tags == slices.len() {
            let lengths: Vec<usize> = slices.iter().map(|slice| slice.len()).collect();
            let entries = entries_of(&body);
            assert!(entries.iter().all(|entry| entry.2 == 0));
            let listed: Vec<usize> = entries.iter().map(|entry| entry.1).collect();
            assert_eq!(listed, lengths);
            seen += 1;
        }
    }
    assert!(seen > 500, "{seen}");
}

#[test]
fn lent_memory_is_kept() {
    for verb in ["group", "salvage"] {
        for (parts, words) in answered(verb, 26, 3_000) {
            assert_eq!(words.last().unwrap(), "kept", "{verb} {}", parts.len());
        }
    }
    for (_, words) in answered("write", 27, 3_000) {
        let buffer = bytes(words[words.len() - 1].as_bytes()).unwrap();
        let length = if words[0] == "ok" {
            words[1].parse().unwrap()
        } else {
            0
        };
        assert!(buffer[length..].iter().all(|&byte| byte == 0xAA));
    }
    for (parts, words) in answered("edit", 28, 3_000) {
        if words[0] == "refused" {
            let after = bytes(words[3].as_bytes()).unwrap();
            assert_eq!(bytes(&parts[1]).unwrap(), after);
        }
    }
    for (parts, words) in answered("screen", 29, 2_000) {
        if words[0] == "refused" {
            assert_eq!(record(&parts[1]), record(words[3].as_bytes()));
        }
    }
}

#[test]
fn an_edit_changes_one_record_only() {
    let mut seen = 0;
    for (parts, words) in answered("edit", 30, 3_000) {
        if words[0] != "ok" {
            continue;
        }
        let before = bytes(&parts[1]).unwrap();
        let after = bytes(words[1].as_bytes()).unwrap();
        let group = number(&parts[2]).unwrap();
        let new = record(&parts[4]).unwrap();
        for other in 0..read_body(&before).unwrap().len() as u32 {
            let mut old_table = [EMPTY; 16];
            let mut new_table = [EMPTY; 16];
            let old = read_group(&before, other, &mut old_table).unwrap();
            assert_eq!(read_group(&after, other, &mut new_table).unwrap(), old);
            for record in &mut old_table[..old.0] {
                if other == group && record[0] == new[0] {
                    record[..].copy_from_slice(new.bytes());
                    seen += 1;
                }
            }
            assert_eq!(old_table, new_table);
        }
        let mut back = after.clone();
        let mut old_table = [EMPTY; 16];
        let (count, _) = read_group(&before, group, &mut old_table).unwrap();
        let old = old_table[..count].iter().find(|old| old[0] == new[0]);
        edit(&mut back, group, new[0], old.unwrap(), true).unwrap();
        assert_eq!(back, before);
    }
    assert!(seen > 500, "{seen}");
}

/// "Whatever our own edit writes must be answered yes, an unchanged body too" (document 02, §13):
/// for the record edited, and for another one only where nothing changed.
#[test]
fn an_edit_is_checked_yes() {
    let mut seen = [0; 3];
    for (parts, words) in answered("edit", 48, 6_000) {
        if words[0] != "ok" {
            continue;
        }
        let before = bytes(&parts[1]).unwrap();
        let after = bytes(words[1].as_bytes()).unwrap();
        let group = number(&parts[2]).unwrap();
        let channel = number(&parts[3]).unwrap() as u8;
        assert_eq!(check(&before, &after, group, channel), Ok(Checked::Yes));
        assert_eq!(check(&after, &before, group, channel), Ok(Checked::Yes));
        assert_eq!(check(&before, &before, group, channel), Ok(Checked::Yes));
        let [file, edited] = [&before, &after].map(|body| {
            let sections: [([u8; 4], &[u8]); 2] = [(*b"CASM", body), (*b"OTSc", b"ots")];
            StyleDraft::new(b"track", &sections).bytes()
        });
        let told = check_files(&file, &edited, group, channel);
        assert_eq!(told, Ok(Checked::Yes));
        seen[0] += 1;
        let (_, place) = find_channel(&before, group, channel).unwrap();
        for (other, found) in (0..).zip(&read_body(&before).unwrap()) {
            for stands in found.records.iter().filter(|stands| stands.place != place) {
                let told = check(&before, &after, other, stands.record[0]);
                assert_eq!(told == Ok(Checked::Yes), before == after);
                seen[1 + usize::from(before == after)] += 1;
            }
        }
    }
    assert!(seen.iter().all(|&count| count > 100), "{seen:?}");
}

/// An edit inside a style file that is accepted is answered yes for its group and channel, has the
/// bytes that the edit of the body alone has, and can be read; what is refused changes no byte.
#[test]
fn a_file_edit_is_checked_yes() {
    let mut seen = [0; 3];
    for (parts, words) in answered("editfile", 49, 9_000) {
        let before = bytes(&parts[1]).unwrap();
        let after = bytes(words[words.len() - 1].as_bytes()).unwrap();
        if words[0] != "ok" {
            assert_eq!(before, after);
            seen[2] += 1;
            continue;
        }
        let found = find(&before).unwrap();
        let mut body = found.body(&before).to_vec();
        let group = find_part(&body, &bytes(&parts[2]).unwrap()).unwrap() as u32;
        let channel = number(&parts[3]).unwrap() as u8;
        let told = check_files(&before, &after, group, channel);
        assert_eq!(told, Ok(Checked::Yes));
        let line = format!(
            "checkedfile {} {} {group} {channel}",
            spell(&before),
            spell(&after)
        );
        assert_eq!(answer(line.as_bytes()), "ok yes");
        let new = record(&parts[5]).unwrap();
        edit(&mut body, group, channel, &new, &parts[4][..] != b"0").unwrap();
        let start = found.body_place();
        let end = start + body.len();
        let alone = [&before[..start], &body, &before[end..]].concat();
        assert_eq!(after, alone);
        assert_eq!(find(&after), Ok(found));
        assert!(read_body(&body).is_ok());
        seen[usize::from(before == after)] += 1;
    }
    assert!(seen.iter().all(|&count| count > 100), "{seen:?}");
}

/// The bytes of the record asked for, by its chunk alone.
fn record_bytes(body: &[u8], group: u32, channel: u8) -> Option<std::ops::Range<usize>> {
    let all = groups(body);
    let (_, children) = all.get(group as usize)?;
    let found = records(children);
    let chunk = found.iter().find(|chunk| chunk.payload[0] == channel)?;
    Some(chunk.place + 8..chunk.end())
}

/// Yes exactly when the bytes before the record and those behind it are the same in both bodies;
/// the refusals in their order (document 02, §13).
#[test]
fn a_check_by_what_stands_around_the_record() {
    let mut seen = [0; 4];
    for (parts, words) in answered("checked", 49, 12_000) {
        let [before, after] = [1, 2].map(|part| bytes(&parts[part]).unwrap());
        let group = number(&parts[3]).unwrap();
        let channel = number(&parts[4]).unwrap() as u8;
        let told = words.join(" ");
        let refused = [(&before, "before"), (&after, "after")]
            .into_iter()
            .find_map(|(body, which)| Some((read_body(body).err()?, which)));
        if let Some((refusal, which)) = refused {
            let expected = format!("refused {} {} {which}", refusal.number, refusal.place);
            assert_eq!(told, expected);
            seen[0] += 1;
            continue;
        }
        let Some(record) = record_bytes(&before, group, channel) else {
            let there = (group as usize) < groups(&before).len();
            let number = if there { 15 } else { 16 };
            assert_eq!(told, format!("refused {number} 0 before"));
            seen[1] += 1;
            continue;
        };
        let around = |body: &[u8]| {
            let start = body.get(..record.start).map(<[u8]>::to_vec);
            (start, body.get(record.end..).map(<[u8]>::to_vec))
        };
        if around(&before) == around(&after) {
            assert_eq!(told, "ok yes");
            assert_eq!(before.len(), after.len());
            seen[2] += 1;
            continue;
        }
        let place: usize = words[2].parse().unwrap();
        assert_eq!(told, format!("ok no {place}"));
        assert!(!record.contains(&place));
        assert_ne!(before.get(place), after.get(place));
        let until = place.min(record.start);
        assert_eq!(before[..until], after[..until]);
        if place > record.end {
            assert_eq!(before[record.end..place], after[record.end..place]);
        }
        seen[3] += 1;
    }
    assert!(seen.iter().all(|&count| count > 1_000), "{seen:?}");
}

/// Without override an edit is refused with 22 exactly where it would be accepted or refused with 9
/// and the record in the body is locked; else both are answered alike (document 02, §6).
#[test]
fn an_override_passes_22_and_no_other() {
    let mut seen = [0; 3];
    for (mut parts, _) in answered("edit", 47, 4_000) {
        let mut with = |over: &[u8]| {
            parts[5] = over.to_vec();
            answer(&parts.join(&b' '))
        };
        let (free, asked) = (with(b"1"), with(b"0"));
        let body = bytes(&parts[1]).unwrap();
        let group = number(&parts[2]).unwrap();
        let channel = number(&parts[3]).unwrap() as u8;
        let found = find_channel(&body, group, channel);
        let locked = found.is_ok_and(|(_, place)| body[place + 10] == 1);
        let reached = free.starts_with("ok ") || free.starts_with("refused 9 ");
        if locked && reached {
            assert_eq!(asked, format!("refused 22 10 {}", show_bytes(&body)));
            seen[usize::from(free.starts_with("ok "))] += 1;
        } else {
            assert_eq!(asked, free);
            seen[2] += 1;
        }
    }
    assert!(seen.iter().all(|&count| count > 50), "{seen:?}");
}

/// A key press is refused with 22 exactly where its index is in range and not 10 and byte 10 is 01;
/// else it is answered as if no byte 10 locked (document 02, §6).
#[test]
fn a_lock_on_the_screen_is_22_and_no_other() {
    let mut seen = [0; 2];
    for (mut parts, words) in answered("screen", 48, 4_000) {
        let given = record(&parts[1]).unwrap();
        let index = number(&parts[2]).unwrap() as usize;
        let locked = given[10] == 1 && index != 10 && index < given.edition().fields();
        assert_eq!(locked, words[..2] == ["refused", "22"]);
        seen[usize::from(locked)] += 1;
        if locked {
            assert_eq!(words[2], "10");
            continue;
        }
        let mut other = given;
        other[10] = 0xEE;
        parts[1] = show_record(&other).into_bytes();
        let again = answer(&parts.join(&b' '));
        let again: Vec<&str> = again.split(' ').collect();
        let last = words.len() - 1;
        assert_eq!(again[..last], words[..last]);
        let mut shown = record(again[last].as_bytes()).unwrap();
        if shown[10] == 0xEE {
            shown[10] = given[10];
        }
        assert_eq!(show_record(&shown), words[last]);
    }
    assert!(seen.iter().all(|&count| count > 500), "{seen:?}");
}

#[test]
fn a_key_press_changes_one_byte_only() {
    for (parts, words) in answered("screen", 31, 3_000) {
        if words[0] == "ok" {
            let mut expected = record(&parts[1]).unwrap();
            expected[number(&parts[2]).unwrap() as usize] = number(&parts[3]).unwrap() as u8;
            assert_eq!(record(words[1].as_bytes()).unwrap(), expected);
        }
    }
}

#[test]
fn a_found_section_is_the_casm() {
    for (parts, words) in answered("find", 32, 3_000) {
        if words[0] == "ok" {
            let file = bytes(&parts[1]).unwrap();
            let place: usize = words[1].parse().unwrap();
            let length: u32 = words[2].parse().unwrap();
            assert_eq!(&file[place..place + 4], b"CASM");
            assert_eq!(file[place + 4..place + 8], length.to_be_bytes());
            let found = find(&file).unwrap();
            assert_eq!(
                found.body(&file),
                &file[place + 8..place + 8 + length as usize]
            );
        }
    }
}

/// Who plays, by the masks written out as binary digits.
#[test]
fn who_plays_by_binary_digits() {
    let mut dice = Dice::new(33);
    for turn in 0..60 {
        let edition = [Edition::First, Edition::Second][turn % 2];
        let records = sound::records_of(&mut dice, edition, 5);
        let body = second::write::group_bytes(b"Main A", &records);
        for root in 0..12 {
            for chord_type in 0..34 {
                let expected: Vec<u8> = records
                    .iter()
                    .filter(|record| {
                        digit(&record[11..13], root) && digit(&record[13..18], chord_type)
                    })
                    .map(|record| record[0])
                    .collect();
                let played = who_plays(&body, b"Main A", root as u8, chord_type as u8);
                assert_eq!(played, Ok(expected));
            }
        }
    }
}

/// The digit of a mask, counted from its right end.
fn digit(mask: &[u8], from_right: usize) -> bool {
    let digits: String = mask.iter().map(|byte| format!("{byte:08b}")).collect();
    digits.as_bytes()[digits.len() - 1 - from_right] == b'1'
}

#[test]
fn a_voice_name_is_a_part_of_the_body() {
    let mut dice = Dice::new(34);
    for turn in 0..200 {
        let edition = [Edition::First, Edition::Second][turn % 2];
        let records = sound::records_of(&mut dice, edition, 3);
        let body = second::write::group_bytes(b"Main A", &records);
        for (number, record) in records.iter().enumerate() {
            let shown = voice_name(&body, 0, record[0]).unwrap();
            let start = 22 + (8 + edition.size()) * number + 8 + 1;
            assert_eq!(shown.as_ptr(), body[start..].as_ptr());
            assert_eq!(&record[1..1 + shown.len()], shown);
            assert!(record[1 + shown.len()..9].iter().all(|&byte| byte == b' '));
            assert_ne!(shown.last(), Some(&b' '));
        }
    }
}

/// The numbers of an accepting answer; none of a refusal.
fn numbers(words: &[String]) -> Option<Vec<usize>> {
    (words[0] == "ok").then(|| words[1..].iter().map(|w| w.parse().unwrap()).collect())
}

/// A body, the other tokens of its line and the answer.
type Asked = (Vec<u8>, Vec<Vec<u8>>, Vec<String>);

/// The lines of a lookup on a sound body. On any other body it is refused.
fn lookups(verb: &'static str, seed: u64) -> Vec<Asked> {
    let mut list = Vec::new();
    for (mut parts, words) in answered(verb, seed, 4_000) {
        let body = bytes(&parts[1]).unwrap();
        if read_body(&body).is_ok() {
            list.push((body, parts.split_off(2), words));
        } else {
            assert!(numbers(&words).is_none());
        }
    }
    list
}

/// Each answer of `where`, and 16 exactly where the body has no such group.
#[test]
fn a_group_stands_where_its_chunks_do() {
    let mut seen = 0;
    for (body, asked, words) in lookups("where", 34) {
        let groups = groups(&body);
        let Some((group, children)) = groups.get(number(&asked[0]).unwrap() as usize) else {
            assert_eq!(words, ["refused", "16", "0"]);
            continue;
        };
        let (records, cntts) = (records(children), of_tag(children, b"Cntt"));
        let (sdec, end) = (&children[0], group.end());
        let first_cntt = cntts.first().map_or(end, |cntt| cntt.place);
        let first_record = records.first().map_or(first_cntt, |record| record.place);
        let expected = [
            group.place,
            end - group.place,
            sdec.place + 8,
            sdec.payload.len(),
            first_record,
            records.len(),
            first_cntt,
            cntts.len(),
            edition(children),
        ];
        assert_eq!(numbers(&words), Some(expected.to_vec()));
        seen += 1;
    }
    assert!(seen > 2_000, "{seen}");
}

/// Each answer of `channel`, and 15 exactly where no Ctab or Ctb2 of the group begins with the
/// channel.
#[test]
fn a_record_stands_where_its_chunk_does() {
    let mut seen = [0; 3];
    for (body, asked, words) in lookups("channel", 35) {
        let group = number(&asked[0]).unwrap() as usize;
        let channel = number(&asked[1]).unwrap();
        let expected = groups(&body).get(group).map(|(_, children)| {
            let records = records(children);
            let row = records
                .iter()
                .position(|record| u32::from(record.payload[0]) == channel);
            row.map(|row| vec![row, records[row].place + 8])
        });
        let refusal = match &expected {
            None => Some(16),
            Some(None) => Some(15),
            Some(Some(_)) => None,
        };
        match refusal {
            Some(number) => assert_eq!(words, ["refused", &number.to_string(), "0"]),
            None => assert_eq!(numbers(&words), expected.flatten()),
        }
        seen[refusal.map_or(0, |number| number - 14)] += 1;
    }
    assert!(
        seen[0] > 1_000 && seen[1] > 300 && seen[2] > 100,
        "{seen:?}"
    );
}

/// Each answer of `part`, and 15 exactly where no group has the name.
#[test]
fn a_part_is_a_name_of_its_group() {
    let mut seen = [0; 2];
    for (body, asked, words) in lookups("part", 36) {
        let part = bytes(&asked[0]).unwrap();
        let groups = groups(&body);
        let having: Vec<usize> = (0..groups.len())
            .filter(|&number| names(&groups[number].1).contains(&&part[..]))
            .collect();
        seen[usize::from(!having.is_empty())] += 1;
        match numbers(&words) {
            Some(told) => assert_eq!(told, having),
            None => assert_eq!((words[1].as_str(), having.len()), ("15", 0)),
        }
    }
    assert!(seen[0] > 300 && seen[1] > 1_500, "{seen:?}");
}

/// The same for second-edition records, by the set that the note uses.
#[test]
fn placement_by_a_set_by_brute_force() {
    let mut dice = Dice::new(36);
    let mut seen = [0; 3];
    for _ in 0..160 {
        let record = ctb2::record(&mut dice, 5);
        for root in 0..12 {
            for note in 0..128 {
                let placed = place_note(&record, root, note);
                let (which, set) = match note {
                    _ if note < record[20] => (0, 22),
                    _ if note > record[21] => (2, 34),
                    _ => (1, 28),
                };
                seen[which] += 1;
                let bypass = record[set + 1] & 0x7F == 0;
                let expected = match record[set] {
                    2 => None,
                    1 if !bypass => None,
                    _ => Some(octave_of(
                        &record,
                        set,
                        bypass,
                        i64::from(root),
                        i64::from(note),
                    )),
                };
                match expected {
                    Some(expected) => assert_eq!(placed, Ok(expected), "{record:?} {root} {note}"),
                    None => assert_eq!(placed.unwrap_err().number, 17),
                }
            }
        }
    }
    assert!(seen.iter().all(|&count| count > 20_000), "{seen:?}");
}

/// Placement against every octave of the value, the answer picked by the documents' words.
#[test]
fn placement_by_brute_force() {
    let mut dice = Dice::new(35);
    for turn in 0..160 {
        let mut record = sound::record(&mut dice, 5);
        if turn < 20 {
            record = plain_record();
            record[18] = (turn % 12) as u8;
            record[23] = 6 * turn as u8;
            record[24] = 6 * turn as u8 + [0, 3, 10, 11, 12][turn % 5];
        }
        for root in 0..12 {
            for note in 0..128 {
                let placed = place_note(&record, root, note);
                match by_octaves(&record, i64::from(root), i64::from(note)) {
                    Some(expected) => assert_eq!(placed, Ok(expected), "{record:?} {root} {note}"),
                    None => assert_eq!(placed.unwrap_err().number, 17),
                }
            }
        }
    }
}

/// None where the answer is 17.
fn by_octaves(record: &Record, root: i64, note: i64) -> Option<u8> {
    let field = |index: usize| i64::from(record[index]);
    let bypass = match record.second_table() {
        Some(value) => value == 0x80,
        None => field(21) == 0,
    };
    if !bypass && field(20) == 1 {
        return None;
    }
    Some(octave_of(record, 20, bypass, root, note))
}

/// The octave of a value that a set's high key and limits pick.
fn octave_of(record: &Record, set: usize, bypass: bool, root: i64, note: i64) -> u8 {
    let field = |index: usize| i64::from(record[index]);
    let mut value = note;
    if !bypass {
        value += root - field(18);
        if root > field(set + 2) {
            value -= 12;
        }
    }
    let (low, high) = (field(set + 3), field(set + 4));
    let octaves: Vec<i64> = (-20..=20)
        .map(|octave| value + 12 * octave)
        .filter(|other| (0..=127).contains(other))
        .collect();
    let within = octaves
        .iter()
        .filter(|&&other| low <= other && other <= high);
    let chosen = if low <= value && value <= high {
        Some(value)
    } else if value < low {
        within.min().copied()
    } else {
        within.max().copied()
    };
    let nearest = octaves
        .iter()
        .min_by_key(|&&other| ((other - low).abs(), other));
    chosen.or(nearest.copied()).map_or(0, |note| note as u8)
}

/// The condition of the request's third demand is needed: new bytes that complete a CSEG begun
/// before them spoil the group that they follow.
#[test]
fn a_completed_cseg_spoils_its_neighbour() {
    let mut earlier = b"CSEG\0\0\0\x0ESdec\0\0\0\x06".to_vec();
    earlier.extend(b"ManCSE");
    let listed = |body: &[u8]| {
        let mut lent = vec![
            second::salvage::Entry {
                place: 0,
                length: 0,
                kind: 0
            };
            8
        ];
        let count = second::salvage::salvage(body, &mut lent).expect("within the limit");
        lent[..count]
            .iter()
            .map(|e| (e.place, e.length, e.kind))
            .collect::<Vec<_>>()
    };
    assert_eq!(listed(&earlier), [(0, 22, 0)]);
    assert_eq!(listed(b"G"), [(0, 1, 6)]);
    let mut spoilt = earlier.clone();
    spoilt.extend(b"G");
    assert_eq!(listed(&spoilt), [(0, 19, 2), (19, 4, 2)]);
    let mut kept = earlier;
    kept.extend(b"H");
    assert_eq!(listed(&kept), [(0, 22, 0), (22, 1, 6)]);
}
