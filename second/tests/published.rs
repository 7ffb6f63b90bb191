//! The worked examples of document 000, 5.2.6 and 5.2.7, and of document 001, 1.1, as far as
//! document 01's placement covers them. C3 is note 60.
//! Not covered: 001's example of root fixed (C3-E3-G3 becoming C3-F3-A3), where document 01
//! answers 17, and chord types other than the source's, whose minor-scale changes aren't read.
//! 5.2.6's "The range must be at least one octave" does not hold here: a shorter range is read.

mod common;

use common::plain_record;
use second::place::place_note;
use second::record::Record;
use second::refusal::Refusal;

/// Places three notes and answers them from low to high, as the documents print them.
fn chord(record: &Record, root: u8, notes: [u8; 3]) -> [u8; 3] {
    let mut placed = notes.map(|note| place_note(record, root, note).unwrap());
    placed.sort();
    placed
}

#[test]
fn note_limits_of_5_2_6() {
    let mut record = plain_record();
    record[23] = 60;
    record[24] = 74;
    let notes = [64, 67, 72];
    assert_eq!(chord(&record, 0, notes), [64, 67, 72]);
    assert_eq!(chord(&record, 1, notes), [65, 68, 73]);
    assert_eq!(chord(&record, 3, notes), [63, 67, 70]);
}

#[test]
fn high_key_of_5_2_7() {
    let mut record = plain_record();
    record[22] = 5;
    let notes = [60, 64, 67];
    assert_eq!(chord(&record, 0, notes), [60, 64, 67]);
    assert_eq!(chord(&record, 1, notes), [61, 65, 68]);
    assert_eq!(chord(&record, 2, notes), [62, 66, 69]);
    assert_eq!(chord(&record, 5, notes), [65, 69, 72]);
    assert_eq!(chord(&record, 6, notes), [54, 58, 61]);
}

#[test]
fn root_transposition_of_001() {
    assert_eq!(chord(&plain_record(), 5, [60, 64, 67]), [65, 69, 72]);
}

#[test]
fn root_fixed_is_17() {
    let mut record = plain_record();
    record[20] = 1;
    let refusal = Refusal {
        number: 17,
        place: 0,
    };
    assert_eq!(place_note(&record, 5, 60), Err(refusal));
}
