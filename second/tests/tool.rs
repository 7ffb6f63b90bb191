//! The questions of a tool for people, worked out by hand: a section by its place, an entry of a
//! salvage list by its bytes, and the chunk that has a place. Then what they have in common with the
//! finding, the salvage list and the reading of a body, over generated bodies.

mod common;

use common::answered::answered;
use common::checked_bodies::{one, two, with, with_cntts};
use common::chunks::{chunks, groups, of_tag, records};
use common::{entries_of, m, n};
use second::body::read_body;
use second::calls::answer;
use second::entry::entry;
use second::script::{bytes, show_bytes};
use second::section::section;
use second::site::{site, Site};
use second::style::find;
use second::write::{chunk, group_bytes};

fn is(line: &str, expected: &str) {
    assert_eq!(answer(line.as_bytes()), expected, "{line}");
}

fn section_is(file: &[u8], at: usize, expected: &str) {
    is(&format!("section {} {at}", show_bytes(file)), expected);
}

fn entry_is(piece: &[u8], expected: &str) {
    is(&format!("entry {}", show_bytes(piece)), expected);
}

fn site_is(body: &[u8], place: usize, expected: &str) {
    is(&format!("site {} {place}", show_bytes(body)), expected);
}

/// The file of document 01's `list` example: MThd at 0, MTrk at 14, CASM at 26, 57 bytes in all.
fn list_file() -> Vec<u8> {
    let file = [
        chunk(*b"MThd", &[0, 0, 0, 1, 0, 0x60]),
        chunk(*b"MTrk", &[0, 0xFF, 0x2F, 0]),
        chunk(*b"CASM", &[m(), vec![0]].concat()),
    ]
    .concat();
    assert_eq!(file.len(), 57);
    file
}

#[test]
fn sections_by_place() {
    let file = list_file();
    section_is(&file, 0, "ok 6");
    section_is(&file, 14, "ok 4");
    section_is(&file, 26, "ok 23");
    section_is(&file, 34, "ok 14");
    section_is(&file, 42, "ok 6");
    section_is(&file, 4, "ok 1");
    section_is(&file, 1, "refused 2 1");
    section_is(&file, 49, "refused 2 49");
    section_is(&file, 50, "refused 2 50");
    section_is(&file, 56, "refused 2 56");
    section_is(&file, 57, "refused 2 57");
    section_is(&file, 58, "refused 2 58");
    section_is(&file, 4_294_967_295, "refused 2 4294967295");
    section_is(&file[..56], 26, "refused 2 26");
    section_is(&file[..56], 14, "ok 4");
    section_is(&file[..33], 26, "refused 2 26");
    section_is(&file[..26], 14, "ok 4");
    section_is(&file[..25], 14, "refused 2 14");
}

/// No limit, no tag and no other section is judged.
#[test]
fn sections_of_what_is_no_style_file() {
    section_is(&[], 0, "refused 2 0");
    section_is(&[0; 7], 0, "refused 2 0");
    section_is(&[0; 8], 0, "ok 0");
    section_is(&[0; 8], 1, "refused 2 1");
    section_is(&[0; 8], 8, "refused 2 8");
    section_is(b"abcd\0\0\0\x01", 0, "refused 2 0");
    section_is(b"abcd\0\0\0\x01x", 0, "ok 1");
    section_is(b"abcd\xFF\xFF\xFF\xF8x", 0, "refused 2 0");
    section_is(b"xabcd\x01\0\0\0y", 1, "refused 2 1");
    let great = chunk(*b"CASM", &[0; 70_000]);
    section_is(&[&great[..], &great].concat(), 70_008, "ok 70000");
    is("section 00*1048577 0", "ok 0");
    is("section 00*1048577 1048569", "ok 0");
    is("section 00*1048577 1048570", "refused 2 1048570");
    is("section 4d546864000ffff9+00*1048569 0", "ok 1048569");
    is("section 4d546864000ffffa+00*1048569 0", "refused 2 0");
}

/// Document 01's marked examples that are about one group, and what follows it.
#[test]
fn entries_of_the_examples() {
    let (m, n) = (m(), n());
    entry_is(&[], "refused 6 0");
    entry_is(&m, "ok 22");
    entry_is(&m[..7], "refused 2 0");
    entry_is(b"CSEG\0\0\0\0", "refused 6 0");
    entry_is(&with(&m, &[(15, 7)]), "refused 2 8");
    entry_is(&with(&m, &[(21, b',')]), "refused 8 8");
    entry_is(&[&m[..], &m].concat(), "ok 22");
    entry_is(&[&m[..], &[0]].concat(), "ok 22");
    entry_is(&with(&m, &[(0, 0x44)]), "refused 6 0");
    entry_is(&with(&m, &[(7, 0x0F)]), "refused 2 0");
    entry_is(
        &[with(&m, &[(7, 0x0F)]), n.clone()].concat(),
        "refused 2 22",
    );
    entry_is(&[&m[..], &[0xFF; 9]].concat(), "ok 22");
}

#[test]
fn entries_that_are_loose_cut_or_great() {
    for loose in [
        &b"C"[..],
        b"CSE",
        b"cseg",
        b"CSEH\0\0\0\0",
        b"\0CSEG\0\0\0\0",
    ] {
        entry_is(loose, "refused 6 0");
    }
    entry_is(b"CSEG", "refused 2 0");
    entry_is(b"CSEG\0\0\0\x01", "refused 2 0");
    entry_is(b"CSEG\xFF\xFF\xFF\xF8", "refused 2 0");
    let hex = show_bytes(&m());
    is(&format!("entry {hex}+00*32746"), "ok 22");
    is(&format!("entry {hex}+00*32747"), "refused 3 0");
    is("entry 00*32768", "refused 6 0");
    is("entry 00*32769", "refused 3 0");
    is("entry 43534547+00*1048573", "refused 3 0");
}

/// The group's own refusals with their places, in both editions; rules across groups play no part.
#[test]
fn entries_by_the_group_rules() {
    for (of, size) in common::checked_bodies::EDITIONS {
        let group = group_bytes(b"A", &[of(5), of(2)]);
        let (first, second) = (17, 17 + 8 + size);
        let whole = format!("ok {}", group.len());
        entry_is(&group, &whole);
        entry_is(&group[..group.len() - 1], "refused 2 0");
        let named = |place: usize, value: u8| with(&group, &[(place, value)]);
        entry_is(
            &named(first + 8 + 9, 7),
            &format!("refused 9 {}", first + 17),
        );
        entry_is(&named(second + 8, 5), &format!("refused 10 {second}"));
        entry_is(&named(second, b'c'), &format!("refused 6 {second}"));
        entry_is(
            &named(second + 7, size as u8 - 1),
            &format!("refused 7 {second}"),
        );
        entry_is(
            &named(second + 7, size as u8 + 1),
            &format!("refused 2 {second}"),
        );
        for other in [
            group.clone(),
            group_bytes(b"B", &[one(5)]),
            group_bytes(b"B", &[two(5)]),
        ] {
            entry_is(&[&group[..], &other].concat(), &whole);
        }
    }
    entry_is(&with_cntts(), "ok 107");
    entry_is(&with(&with_cntts(), &[(95, 9)]), "refused 11 87");
    entry_is(&with(&with_cntts(), &[(106, 5)]), "refused 9 106");
    entry_is(&with(&with_cntts(), &[(105, 5)]), "refused 10 97");
    entry_is(&group_bytes(b"A,CSEG", &[]), "ok 22");
}

#[test]
fn sites_of_sound_bodies() {
    let (m, n) = (m(), n());
    for (places, expected) in [(0..8, "ok 0 0 0"), (8..22, "ok 0 1 8")] {
        places.for_each(|place| site_is(&m, place, expected));
    }
    let both = [&m[..], &n].concat();
    site_is(&both, 21, "ok 0 1 8");
    site_is(&both, 22, "ok 1 0 22");
    site_is(&both, 29, "ok 1 0 22");
    site_is(&both, 30, "ok 1 1 30");
    site_is(&both, 43, "ok 1 1 30");
    let group = with_cntts();
    for (place, expected) in [
        (16, "ok 0 1 8"),
        (17, "ok 0 2 17"),
        (51, "ok 0 2 17"),
        (52, "ok 0 3 52"),
        (86, "ok 0 3 52"),
        (87, "ok 0 4 87"),
        (96, "ok 0 4 87"),
        (97, "ok 0 5 97"),
        (106, "ok 0 5 97"),
        (107, "refused 16 0"),
        (4_294_967_295, "refused 16 0"),
    ] {
        site_is(&group, place, expected);
    }
}

/// Loose chunks, headers behind headers and cut ones, CSEG that is passed over.
#[test]
fn sites_of_odd_bytes() {
    let m = m();
    site_is(&[], 0, "refused 16 0");
    site_is(b"x", 0, "ok 0 0 0");
    site_is(b"x", 1, "refused 16 0");
    site_is(&[0; 24], 7, "ok 0 0 0");
    site_is(&[0; 24], 8, "ok 0 1 8");
    site_is(&[0; 24], 23, "ok 0 2 16");
    let loose = [&[0; 16], &m[..], &m].concat();
    site_is(&loose, 15, "ok 0 1 8");
    site_is(&loose, 16, "ok 0 0 16");
    site_is(&loose, 24, "ok 0 1 24");
    site_is(&loose, 38, "ok 1 0 38");
    site_is(b"CSEGCSEG", 7, "ok 0 0 0");
    site_is(b"CSEGCSEGCSEG", 8, "ok 1 0 8");
    site_is(b"CSEGCSEGCSE", 10, "ok 0 1 8");
    for (tail, expected) in [
        (&b"CSE"[..], "ok 0 2 22"),
        (b"CSEG", "ok 1 0 22"),
        (b"CSEG\0\0\0", "ok 1 0 22"),
        (b"Ctab\0\0\0", "ok 0 2 22"),
    ] {
        let bytes = [&m[..], tail].concat();
        site_is(&bytes, 22, expected);
        site_is(&bytes, bytes.len() - 1, expected);
        site_is(&bytes, bytes.len(), "refused 16 0");
    }
    site_is(&group_bytes(b"A,CSEG", &[]), 19, "ok 0 1 8");
    let thirty_four = m.repeat(34);
    site_is(&thirty_four, 33 * 22 + 8, "ok 33 1 734");
}

/// Lengths that lie: a group's plays no part, a child's may jump over groups, to the end or past it.
#[test]
fn sites_behind_lengths_that_lie() {
    let m = m();
    for length in [[0; 4], [0, 0, 0, 3], [0, 0, 1, 0], [0xFF; 4]] {
        let lying = [b"CSEG", &length[..], &m[8..], &m].concat();
        site_is(&lying, 8, "ok 0 1 8");
        site_is(&lying, 22, "ok 1 0 22");
    }
    let child = |length: [u8; 4]| [&m[..12], &length, &m[16..], &m].concat();
    site_is(&child([0, 0, 0, 28]), 43, "ok 0 1 8");
    site_is(&child([0, 0, 0, 27]), 42, "ok 0 1 8");
    site_is(&child([0, 0, 0, 27]), 43, "ok 0 2 43");
    site_is(&child([0, 0, 0, 14]), 30, "ok 0 2 30");
    site_is(&child([0, 0, 0, 5]), 21, "ok 0 2 21");
    for far in [
        [0xFF; 4],
        [0xFF, 0xFF, 0xFF, 0xF8],
        [0xFF, 0xFF, 0xFF, 0xF0],
        [1, 0, 0, 0],
    ] {
        for place in [8, 22, 30, 43] {
            site_is(&child(far), place, "ok 0 1 8");
        }
        site_is(&child(far), 44, "refused 16 0");
    }
}

#[test]
fn sites_at_the_limit() {
    is("site 00*32768 32767", "ok 0 4095 32760");
    is("site 00*32768 32768", "refused 16 0");
    is("site 00*32769 0", "refused 3 0");
    is("site 00*32769 32769", "refused 3 0");
    is("site 00*1048577 4294967295", "refused 3 0");
    is("site 4353454700000000*4096 32767", "ok 4095 0 32760");
}

#[test]
fn lines_that_are_bad() {
    for line in [
        "section -",
        "section - 0 0",
        "section - -1",
        "section - 4294967296",
        "section 0 0",
        "section 00*1048578 0",
        "section - 0 ",
        "sections - 0",
        "Section - 0",
        "entry",
        "entry ",
        "entry - 0",
        "entry -  ",
        "entry 4",
        "entry 00*1048578",
        "entries -",
        "site -",
        "site - 0 0",
        "site - 4294967296",
        "site - -",
        "site 0 0",
        "site 00*1048578 0",
        "sites - 0",
        "site -\t0",
    ] {
        is(line, "bad");
    }
    is("section - 000", "refused 2 0");
    is("entry 00*0", "refused 6 0");
    is("site - 4294967295", "refused 16 0");
}

/// "Salvaging the bytes of each entry by itself": the entries of a list judged alone have their kind
/// as number, one of kind 0 is a group as long as the entry.
#[test]
fn entries_of_a_list_judged_alone() {
    let mut seen = [0; 12];
    for (parts, words) in answered("salvage", 101, 12_000) {
        let body = bytes(&parts[1]).unwrap();
        if words[..2] == ["refused", "3"] {
            continue;
        }
        for (place, length, kind) in entries_of(&body).into_iter().take(60) {
            let told = entry(&body[place..place + length]);
            match kind {
                0 => assert_eq!(told, Ok(length)),
                _ => {
                    let refusal = told.unwrap_err();
                    assert_eq!(refusal.number, kind);
                    assert!(refusal.place < length);
                }
            }
            seen[usize::from(kind)] += 1;
        }
    }
    let few = |kind: &usize| seen[*kind] < 20;
    let kinds = [0, 2, 6, 7, 8, 9, 10, 11];
    assert!(!kinds.iter().any(few), "{seen:?}");
    assert_eq!(
        kinds.map(|kind| seen[kind]).iter().sum::<usize>(),
        seen.iter().sum()
    );
}

/// In a readable body a byte of record i of group g has the chunk 8 bytes before the record's place,
/// child i + 2; that of a text is child 1, that of a Cntt comes behind the records.
#[test]
fn sites_in_readable_bodies() {
    let mut seen = [0; 4];
    for (parts, words) in answered("body", 102, 8_000) {
        let body = bytes(&parts[1]).unwrap();
        if words[0] != "ok" {
            continue;
        }
        let read = read_body(&body).unwrap();
        let all_or_ends = |start: usize, end: usize| match body.len() < 2_000 {
            true => (start..end).collect::<Vec<_>>(),
            false => vec![start, end - 1],
        };
        let assert_site = |places: Vec<usize>, group, child, chunk| {
            let found = Site {
                group,
                child,
                chunk,
            };
            for place in places {
                assert_eq!(site(&body, place as u32), Ok(found));
            }
        };
        for (group, (header, children)) in groups(&body).iter().enumerate() {
            assert_site(
                all_or_ends(header.place, header.place + 8),
                group,
                0,
                header.place,
            );
            let text = &children[0];
            assert_site(all_or_ends(text.place, text.end()), group, 1, text.place);
            for (number, placed) in read[group].records.iter().enumerate() {
                let size = placed.record.edition().size();
                let places = all_or_ends(placed.place, placed.place + size);
                assert_site(places, group, number + 2, placed.place - 8);
                seen[placed.record.edition() as usize + 1] += 1;
            }
            let count = records(children).len();
            for (number, cntt) in of_tag(children, b"Cntt").iter().enumerate() {
                let places = all_or_ends(cntt.place, cntt.end());
                assert_site(places, group, count + number + 2, cntt.place);
                seen[3] += 1;
            }
            seen[0] += 1;
        }
    }
    assert!(seen.iter().all(|&count| count > 300), "{seen:?}");
}

/// Of a file whose CASM is found every section has its length by its place, the CASM that of its
/// body.
#[test]
fn sections_of_found_files() {
    let mut seen = 0;
    for (parts, words) in answered("find", 103, 6_000) {
        let file = bytes(&parts[1]).unwrap();
        if words[0] != "ok" || file.len() > 50_000 {
            continue;
        }
        let found = find(&file).unwrap();
        assert_eq!(
            section(&file, found.tag_place as u32),
            Ok(found.body_length)
        );
        for chunk in chunks(&file, 0, file.len()) {
            assert_eq!(section(&file, chunk.place as u32), Ok(chunk.payload.len()));
            seen += 1;
        }
    }
    assert!(seen > 3_000, "{seen}");
}
