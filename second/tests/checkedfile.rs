//! The check of document 02, §13, asked of two style files: each case worked out by hand. In the
//! file of these tests the track stands at 22 to 24, OTSc at 25 (its three bytes at 33), CASM at 36
//! and its body at 44; in a group "A" the first record's byte 0 stands at 25 of the body, so at 69.

mod common;

use common::checked_bodies::{
    body, nine_and_seven, no, one, told_by, two, with, with_cntts, EDITIONS,
};
use common::m;
use second::body::read_body;
use second::calls::answer;
use second::script::show_bytes;
use second::write::{chunk, group_bytes};

/// A file of a track of three bytes and these sections.
fn of_sections(sections: &[Vec<u8>]) -> Vec<u8> {
    let head = chunk(*b"MThd", &[0, 0, 0, 1, 0, 0x60]);
    [head, chunk(*b"MTrk", b"trk"), sections.concat()].concat()
}

fn casm(body: &[u8]) -> Vec<u8> {
    chunk(*b"CASM", body)
}

fn ots() -> Vec<u8> {
    chunk(*b"OTSc", b"ots")
}

fn fnr() -> Vec<u8> {
    chunk(*b"FNRc", b"fn")
}

/// OTSc, the CASM and FNRc; the body begins at 44.
fn file(body: &[u8]) -> Vec<u8> {
    let file = of_sections(&[ots(), casm(body), fnr()]);
    assert_eq!(&file[36..40], b"CASM");
    file
}

fn told(before: &[u8], after: &[u8], group: u32, channel: u8) -> String {
    told_by("checkedfile", before, after, group, channel)
}

/// Unchanged, edited, edited though read only, and renumbered.
#[test]
fn a_changed_record_is_yes() {
    for (of, size) in EDITIONS {
        let before = file(&body(of));
        let last = 69 + size - 1;
        let edited: Vec<(usize, u8)> = (70..78).map(|place| (place, 0xFF)).collect();
        for changes in [vec![], edited, vec![(79, 1)], vec![(69, 9)]] {
            let after = with(&before, &changes);
            assert_eq!(told(&before, &after, 0, 5), "ok yes");
            let locked = with(&before, &[(79, 1)]);
            assert_eq!(told(&locked, &after, 0, 5), "ok yes");
            let other = changes.first().map_or("ok yes".to_string(), |of| no(of.0));
            assert_eq!(told(&before, &after, 0, 2), other);
        }
        if size == 47 {
            assert_eq!(told(&before, &with(&before, &[(last, 7)]), 0, 5), "ok yes");
            assert_eq!(told(&before, &with(&before, &[(last, 7)]), 2, 5), no(last));
        }
    }
}

/// Every place outside the body at which a file can be another one: MThd's six bytes, the track,
/// tags and bytes of the sections before the CASM and behind it, the very last byte.
#[test]
fn a_byte_of_another_section_is_no() {
    for (of, _) in EDITIONS {
        let before = file(&body(of));
        let end = before.len();
        let outside = [
            8,
            13,
            22,
            24,
            25,
            28,
            33,
            35,
            end - 10,
            end - 7,
            end - 2,
            end - 1,
        ];
        for place in outside {
            let after = with(&before, &[(place, 0xE7)]);
            assert_eq!(told(&before, &after, 0, 5), no(place));
            assert_eq!(told(&after, &before, 2, 5), no(place));
            let edited = with(&after, &[(70, b'x')]);
            assert_eq!(told(&before, &edited, 0, 5), no(place));
        }
    }
}

/// A name, another record, a Cntt, another group: places are counted from the file's start.
#[test]
fn a_byte_of_the_body_outside_the_record_is_no() {
    for (of, size) in EDITIONS {
        let before = file(&body(of));
        let second = 69 + size + 8;
        let name_b = second + size + 16;
        let third = name_b + 1 + 25;
        for (place, value) in [
            (60, b'a'),
            (second, 9),
            (second + 25, 1),
            (name_b, b'x'),
            (third + 1, 0),
        ] {
            assert_eq!(
                told(&before, &with(&before, &[(place, value)]), 0, 5),
                no(place)
            );
        }
    }
    let cntts = file(&with_cntts());
    for (place, value) in [(44 + 96, 0x85), (44 + 106, 0x06)] {
        let after = with(&cntts, &[(place, value)]);
        assert_eq!(told(&cntts, &after, 0, 5), no(place));
        assert_eq!(told(&cntts, &after, 0, 2), no(place));
    }
}

/// A Ctab's tag, where the files are read still.
#[test]
fn the_chunks_tag_is_outside_the_record() {
    let [nine, seven] = nine_and_seven().map(|body| file(&body));
    assert_eq!(nine.len(), seven.len());
    for channel in [0, 6, 7, 8] {
        assert_eq!(told(&nine, &seven, 0, channel), no(44 + 263));
    }
}

/// What stands just behind a record that ends its body is the next section's tag, or nothing.
#[test]
fn just_behind_the_record() {
    for (of, size) in EDITIONS {
        let body = group_bytes(b"A", &[of(5)]);
        let before = file(&body);
        let end = 69 + size;
        assert_eq!(&before[end..end + 4], b"FNRc");
        assert_eq!(told(&before, &with(&before, &[(end, b'f')]), 0, 5), no(end));
        let edited = with(&before, &[(70, b'x'), (end, b'f')]);
        assert_eq!(told(&before, &edited, 0, 5), no(end));
        let last = of_sections(&[ots(), casm(&body)]);
        assert_eq!(told(&last, &before, 0, 5), no(end));
        assert_eq!(told(&before, &last, 0, 5), no(end));
        assert_eq!(told(&last, &with(&last, &[(70, b'x')]), 0, 5), "ok yes");
    }
}

/// The sections "stand where they stood": exchanged, added, taken away, moved behind the CASM.
#[test]
fn sections_stand_where_they_stood() {
    let body = body(one);
    let before = file(&body);
    let end = before.len();
    let xyz = chunk(*b"XYZc", b"");
    for (sections, place) in [
        (vec![fnr(), casm(&body), ots()], 25),
        (vec![casm(&body), ots(), fnr()], 25),
        (vec![ots(), fnr(), casm(&body)], 36),
        (vec![xyz.clone(), ots(), casm(&body), fnr()], 25),
        (vec![ots(), xyz.clone(), casm(&body), fnr()], 36),
        (vec![ots(), casm(&body), xyz.clone(), fnr()], end - 10),
        (vec![ots(), casm(&body), fnr(), xyz], end),
        (vec![casm(&body), fnr()], 25),
        (vec![ots(), casm(&body)], end - 10),
    ] {
        let after = of_sections(&sections);
        assert_eq!(told(&before, &after, 0, 5), no(place));
        assert_eq!(told(&after, &before, 0, 5), no(place));
    }
}

/// The same bytes but for a length, which ends a chunk elsewhere: a track that holds OTSc too, a last
/// group that is a section of its own, and an OTSc that holds the CASM, which is not found then.
#[test]
fn ends_that_have_moved() {
    let body = body(two);
    let before = file(&body);
    let track = with(&before, &[(21, 3 + 11)]);
    assert_eq!(told(&before, &track, 0, 5), no(21));
    let last = read_body(&body).unwrap()[2].place;
    let shorter = with(&before, &[(42, 0), (43, last as u8)]);
    let place = if body.len() >= 256 { 42 } else { 43 };
    assert_eq!(told(&before, &shorter, 0, 5), no(place));
    assert_eq!(told(&shorter, &before, 0, 5), no(place));
    assert_eq!(told(&shorter, &before, 2, 5), "refused 16 0 before");
    let with_casm = of_sections(&[ots(), casm(&m()), fnr()]);
    let swallowed = with(&with_casm, &[(32, 3 + 8 + 22)]);
    assert_eq!(told(&with_casm, &swallowed, 0, 5), "refused 5 76 afterfile");
}

/// Files of other lengths: a longer or a shorter body is unlike in the CASM's length, and one that
/// another section makes up for is too.
#[test]
fn bodies_of_other_lengths_are_no() {
    for (of, _) in EDITIONS {
        let short = group_bytes(b"A", &[of(5)]);
        let long = [short.clone(), m()].concat();
        let [before, after] = [&short, &long].map(|body| file(body));
        assert_eq!(told(&before, &after, 0, 5), no(43));
        assert_eq!(told(&after, &before, 0, 5), no(43));
        assert_eq!(told(&before, &file(&[]), 0, 5), no(43));
        let filled = of_sections(&[ots(), casm(&short), chunk(*b"FNRc", &[7; 24])]);
        assert_eq!(filled.len(), after.len());
        assert_eq!(told(&after, &filled, 0, 5), no(43));
    }
}

/// Each refusal of a finding, of the before file and of the after file; 3 for a file stands below.
#[test]
fn findings_are_named() {
    let sound = file(&body(one));
    let end = sound.len();
    let great = of_sections(&[ots(), casm(&[0; 32_769])]);
    let greatest = of_sections(&[ots(), casm(&[0; 32_768])]);
    for (bad, refusal) in [
        (Vec::new(), "1 0".to_string()),
        (sound[..21].to_vec(), "1 0".to_string()),
        (with(&sound, &[(0, b'm')]), "1 0".to_string()),
        (with(&sound, &[(7, 7)]), "1 0".to_string()),
        (with(&sound, &[(14, b'm')]), "1 0".to_string()),
        (with(&sound, &[(18, 1)]), "1 0".to_string()),
        (sound[..end - 1].to_vec(), format!("2 {}", end - 10)),
        (sound[..end - 3].to_vec(), format!("2 {}", end - 10)),
        (with(&sound, &[(29, 0xFF)]), "2 25".to_string()),
        (of_sections(&[ots(), casm(&m()), ots()]), "4 66".to_string()),
        (of_sections(&[casm(&m()), casm(&m())]), "4 55".to_string()),
        (of_sections(&[ots(), fnr()]), "5 46".to_string()),
        (of_sections(&[]), "5 25".to_string()),
        (great, "3 36".to_string()),
    ] {
        for (group, channel) in [(0, 5), (9, 5), (0, 7)] {
            let told = |before, after| told(before, after, group, channel);
            assert_eq!(told(&bad, &sound), format!("refused {refusal} beforefile"));
            assert_eq!(told(&sound, &bad), format!("refused {refusal} afterfile"));
            assert_eq!(told(&bad, &bad), format!("refused {refusal} beforefile"));
        }
    }
    assert_eq!(told(&greatest, &sound, 0, 5), "refused 6 44 before");
    assert_eq!(told(&sound, &greatest, 0, 5), "refused 6 44 after");
}

/// The place of a body's own refusal is counted from its own file's start.
#[test]
fn bodies_are_named_and_their_places_moved() {
    for (of, _) in EDITIONS {
        let sound = body(of);
        let bad = with(&sound, &[(34, 0)]);
        let cut = &sound[..sound.len() - 1];
        let last = read_body(&sound).unwrap()[2].place;
        for (group, channel) in [(0, 5), (0, 7), (9, 5)] {
            for (sections, place) in [
                (|body: &[u8]| vec![casm(body)], 33),
                (|body: &[u8]| vec![ots(), casm(body), fnr()], 44),
                (|body: &[u8]| vec![fnr(), ots(), casm(body)], 54),
            ] as [(fn(&[u8]) -> Vec<Vec<u8>>, usize); 3]
            {
                let [whole, nine, two] =
                    [&sound[..], &bad, cut].map(|body| of_sections(&sections(body)));
                let other = file(&sound);
                let in_name = format!("refused 9 {}", place + 34);
                let in_last = format!("refused 2 {}", place + last);
                let told = |before, after| told(before, after, group, channel);
                assert_eq!(told(&nine, &whole), format!("{in_name} before"));
                assert_eq!(told(&nine, &other), format!("{in_name} before"));
                assert_eq!(told(&other, &nine), format!("{in_name} after"));
                assert_eq!(told(&whole, &two), format!("{in_last} after"));
                assert_eq!(told(&two, &nine), format!("{in_last} before"));
                assert_eq!(told(&nine, &two), format!("{in_name} before"));
            }
        }
    }
}

/// "The before file's finding; the after file's finding; then as for bodies": each before the next.
#[test]
fn refusals_in_order() {
    let sound = file(&body(two));
    let bad_body = with(&sound, &[(60, 0x1F)]);
    let cut_body = with(&sound, &[(52, b'X')]);
    let not_found = with(&sound, &[(36, b'c')]);
    let no_file = with(&bad_body, &[(14, b'x')]);
    let none = format!("5 {}", sound.len());
    for (group, channel) in [(0, 5), (0, 7), (1, 5), (3, 5), (u32::MAX, 255)] {
        let is = |before: &[u8], after: &[u8], expected: &str| {
            let expected = format!("refused {expected}");
            assert_eq!(told(before, after, group, channel), expected);
        };
        is(&no_file, &not_found, "1 0 beforefile");
        is(&not_found, &no_file, &format!("{none} beforefile"));
        is(&no_file, &bad_body, "1 0 beforefile");
        is(&bad_body, &no_file, "1 0 afterfile");
        is(&bad_body, &not_found, &format!("{none} afterfile"));
        is(&sound, &no_file, "1 0 afterfile");
        is(&bad_body, &cut_body, "8 52 before");
        is(&cut_body, &bad_body, "6 52 before");
        is(&sound, &bad_body, "8 52 after");
        is(&sound, &cut_body, "6 52 after");
        is(&file(&[]), &cut_body, "6 52 after");
        is(&file(&[]), &sound, "16 0 before");
    }
    for (group, channel) in [(3, 5), (3, 77), (u32::MAX, 255)] {
        assert_eq!(told(&sound, &sound, group, channel), "refused 16 0 before");
    }
    for (group, channel) in [(0, 7), (1, 5), (2, 2), (0, 255)] {
        assert_eq!(told(&sound, &sound, group, channel), "refused 15 0 before");
        assert_eq!(
            told(&sound, &file(&[]), group, channel),
            "refused 15 0 before"
        );
    }
}

/// 16 and 15 are asked of the before body alone, wherever the after file has its CASM.
#[test]
fn what_only_the_after_file_has_is_not_there() {
    for (of, _) in EDITIONS {
        let before = file(&body(of));
        let more = [body(of), group_bytes(b"D", &[of(7)])].concat();
        let after = of_sections(&[casm(&more), ots()]);
        assert_eq!(told(&before, &after, 3, 7), "refused 16 0 before");
        assert_eq!(told(&after, &before, 3, 7), no(25));
        let renumbered = with(&before, &[(69, 9)]);
        assert_eq!(told(&before, &renumbered, 0, 9), "refused 15 0 before");
        assert_eq!(told(&renumbered, &before, 0, 9), "ok yes");
    }
}

/// Of several unlike places the first outside the record counts; those inside it are none.
#[test]
fn the_first_place_counts() {
    let before = file(&body(one));
    let end = before.len();
    for (changes, place) in [
        (vec![(13, 1), (24, 0), (70, 0)], 13),
        (vec![(70, 0), (78, 8), (end - 1, 0)], end - 1),
        (vec![(33, 0), (end - 2, 0)], 33),
        (vec![(70, 9), (105, 0), (end - 1, 0)], 105),
    ] {
        let after = with(&before, &changes);
        assert_eq!(told(&before, &after, 0, 5), no(place));
        let longer = [after, chunk(*b"Long", b"er")].concat();
        assert_eq!(told(&before, &longer, 0, 5), no(place));
        assert_eq!(told(&longer, &before, 0, 5), no(place));
    }
    let longer = [with(&before, &[(70, 0)]), chunk(*b"Long", b"er")].concat();
    assert_eq!(told(&before, &longer, 0, 5), no(end));
}

/// A file of 1,048,576 bytes is asked of, its last byte too; one byte more is refused.
#[test]
fn files_at_the_limit() {
    let body = show_bytes(&body(one));
    let sections = show_bytes(&file(&[])[..36]);
    let length = body.len() / 2;
    let rest = 1_048_576 - 44 - length - 8;
    let start = format!("{sections}4341534d{length:08x}{body}464e5263");
    let whole = format!("{start}{rest:08x}+00*{rest}");
    let less = rest - 1;
    let unlike = format!("{start}{rest:08x}+00*{less}+01");
    let more = rest + 1;
    let over = format!("{start}{more:08x}+00*{more}");
    let told =
        |before: &str, after: &str| answer(format!("checkedfile {before} {after} 0 5").as_bytes());
    assert_eq!(told(&whole, &whole), "ok yes");
    assert_eq!(told(&whole, &unlike), "ok no 1048575");
    assert_eq!(told(&over, &whole), "refused 3 0 beforefile");
    assert_eq!(told(&whole, &over), "refused 3 0 afterfile");
    assert_eq!(told(&over, &over), "refused 3 0 beforefile");
    assert_eq!(told(&over, "-"), "refused 3 0 beforefile");
    assert_eq!(told("-", &over), "refused 1 0 beforefile");
}
