//! Narrow and crossed limits (document 02, §3): cases worked out by hand, and the request's words
//! as laws for all limits and every remainder of the value.

mod common;

use common::plain_record;
use second::calls::answer;
use second::gen::cntts::with_cntt;
use second::place::place_note;
use second::record::Record;
use second::script::show_record;

/// A record, a chord root and a note whose note plus shift is this value, -22 to 138.
fn asked(value: i32, low: u8, high: u8) -> (Record, u8, u8) {
    let (root, source, key, note) = match value {
        ..0 => (1, 11, 0, value + 22),
        0..=127 => (0, 0, 0, value),
        _ => (11, 0, 11, value - 11),
    };
    let mut record = plain_record();
    record[18] = source;
    record[22] = key;
    record[23] = low;
    record[24] = high;
    (record, root, note as u8)
}

/// Values and their answers under the same limits, through the library and through `calls`.
fn under(low: u8, high: u8, cases: &[(i32, u8)]) {
    for &(value, expected) in cases {
        let (record, root, note) = asked(value, low, high);
        let placed = place_note(&record, root, note);
        assert_eq!(placed, Ok(expected), "limits {low}-{high}, value {value}");
        let line = format!("place {} {root} {note}", show_record(&record));
        assert_eq!(answer(line.as_bytes()), format!("ok {expected}"));
    }
}

/// The arranger's four keys: within them as before, elsewhere at most six keys from the low limit.
#[test]
fn four_keys() {
    let within = [(60, 60), (63, 63), (72, 60), (51, 63), (-22, 62), (132, 60)];
    under(60, 63, &within);
    under(60, 63, &[(64, 64), (65, 65), (66, 54), (67, 55), (71, 59)]);
    under(60, 63, &[(52, 64), (53, 65), (54, 54), (55, 55), (59, 59)]);
    under(60, 63, &[(0, 60), (4, 64), (6, 54), (126, 54), (124, 64)]);
    under(60, 63, &[(-1, 59), (-18, 54), (-19, 65), (-20, 64)]);
    under(60, 63, &[(128, 56), (131, 59), (137, 65), (138, 54)]);
}

/// The high limit plays no part, however near to the value.
#[test]
fn the_low_limit_alone() {
    for high in 60..=65 {
        under(60, high, &[(66, 54), (67, 55), (54, 54)]);
    }
    under(60, 66, &[(66, 66), (54, 66), (67, 55)]);
    under(60, 70, &[(71, 59), (59, 59), (47, 59), (70, 70), (82, 70)]);
    under(60, 71, &[(71, 71), (59, 71), (72, 60), (47, 71)]);
}

/// Low limits where the nearer octave would be below 0.
#[test]
fn the_low_end() {
    under(0, 0, &[(0, 0), (12, 0), (1, 1), (6, 6), (7, 7), (11, 11)]);
    under(0, 0, &[(-1, 11), (-12, 0), (-22, 2), (127, 7), (138, 6)]);
    under(0, 3, &[(3, 3), (4, 4), (11, 11), (23, 11), (14, 2)]);
    under(5, 5, &[(5, 5), (4, 4), (0, 0), (12, 0), (10, 10), (11, 11)]);
    under(6, 6, &[(6, 6), (0, 0), (12, 0), (13, 1), (11, 11), (5, 5)]);
    under(7, 7, &[(12, 12), (0, 12), (1, 1), (13, 1), (2, 2)]);
}

/// Low limits where the nearer octave would be above 127.
#[test]
fn the_high_end() {
    under(
        127,
        127,
        &[(7, 127), (8, 116), (9, 117), (6, 126), (0, 120)],
    );
    under(127, 127, &[(11, 119), (128, 116), (138, 126), (-4, 116)]);
    under(
        124,
        127,
        &[(4, 124), (7, 127), (8, 116), (9, 117), (3, 123)],
    );
    under(
        123,
        123,
        &[(8, 116), (9, 117), (10, 118), (7, 127), (3, 123)],
    );
    under(
        122,
        122,
        &[(8, 116), (9, 117), (7, 127), (2, 122), (1, 121)],
    );
    under(
        121,
        121,
        &[(7, 115), (8, 116), (6, 126), (1, 121), (0, 120)],
    );
}

/// "This holds for crossed limits too."
#[test]
fn crossed_limits() {
    under(64, 63, &[(63, 63), (64, 64), (65, 65), (69, 69)]);
    under(64, 63, &[(70, 58), (58, 58), (71, 59), (57, 69), (0, 60)]);
    under(
        127,
        0,
        &[(0, 120), (60, 120), (7, 127), (8, 116), (127, 127)],
    );
    under(1, 0, &[(0, 0), (1, 1), (7, 7), (8, 8), (12, 0), (-1, 11)]);
    under(
        100,
        40,
        &[(40, 100), (41, 101), (70, 94), (69, 105), (130, 94)],
    );
}

/// Bypass takes the note itself for the value, under either rule.
#[test]
fn bypass_in_four_keys() {
    for (table, cntt) in [(0, None), (3, Some(0x80)), (0, Some(0x80))] {
        for rule in [0, 1] {
            let mut record = plain_record();
            record[18..25].copy_from_slice(&[7, 2, rule, table, 1, 60, 63]);
            record = with_cntt(record, cntt);
            for (note, expected) in [(66, 54), (65, 65), (71, 59), (62, 62), (74, 62)] {
                assert_eq!(place_note(&record, 5, note), Ok(expected));
            }
            record[23] = 127;
            assert_eq!(place_note(&record, 5, 8), Ok(116));
        }
    }
}

/// "Placement: 16, 9, 17" stands before the limits are looked at.
#[test]
fn refusals_as_before() {
    for (low, high) in [(60, 63), (64, 63), (127, 127), (0, 0)] {
        let (mut record, ..) = asked(54, low, high);
        let refused = |record: &Record, root: u8, note: u8| {
            let refusal = place_note(record, root, note).unwrap_err();
            (refusal.number, refusal.place)
        };
        assert_eq!(refused(&record, 12, 54), (16, 0));
        assert_eq!(refused(&record, 0, 128), (16, 0));
        record[20] = 1;
        assert_eq!(refused(&record, 0, 54), (17, 0));
        record[25] = 6;
        assert_eq!(refused(&record, 0, 54), (9, 25));
        assert_eq!(refused(&record, 12, 54), (16, 0));
    }
}

/// Every remainder by 12 at least four times: below 0, at 0, in the middle and above 127.
fn values() -> impl Iterator<Item = i32> {
    (-22..12).chain(54..66).chain(127..139)
}

/// Document 01's answer, where an octave lies within both limits.
fn by_document_01(value: i32, low: i32, high: i32, octaves: &[i32]) -> Option<i32> {
    let within = octaves
        .iter()
        .filter(|&&octave| low <= octave && octave <= high);
    if low <= value && value <= high {
        Some(value)
    } else if value < low {
        within.min().copied()
    } else {
        within.max().copied()
    }
}

/// For all limits: the answer is an octave of the value within 0 to 127; document 01's where one
/// lies within both limits; elsewhere none is nearer to the low limit, and none that is equally
/// near is lower.
#[test]
fn all_limits_and_every_remainder() {
    let mut seen = [0; 2];
    for value in values() {
        let octaves: Vec<i32> = (0..=127)
            .filter(|note| (note - value).rem_euclid(12) == 0)
            .collect();
        let (mut record, root, note) = asked(value, 0, 0);
        for (low, high) in (0..128).flat_map(|low| (0..128).map(move |high| (low, high))) {
            record[23..25].copy_from_slice(&[low as u8, high as u8]);
            let placed = i32::from(place_note(&record, root, note).unwrap());
            assert!(octaves.contains(&placed), "{value} {low}-{high}: {placed}");
            let within = by_document_01(value, low, high, &octaves);
            seen[usize::from(within.is_some())] += 1;
            match within {
                Some(expected) => assert_eq!(placed, expected, "{value} {low}-{high}"),
                None => {
                    let far = |octave: i32| ((octave - low).abs(), octave);
                    let best = octaves.iter().all(|&octave| far(placed) <= far(octave));
                    assert!(best, "{value} {low}-{high}: {placed}");
                }
            }
        }
    }
    assert_eq!(seen.iter().sum::<usize>(), 58 * 128 * 128);
    assert!(seen[0] > 500_000 && seen[1] > 300_000, "{seen:?}");
}
