//! The fifteen marked examples of document 01, every half of each, through the library and
//! through `calls` lines, and its `list` example byte for byte.

mod common;

use common::{entries_of, m, n, plain_record, REFUSED_NONE};
use second::body::{read_body, read_group};
use second::calls::answer;
use second::list::list;
use second::place::place_note;
use second::plays::{plays, who_plays};
use second::record::Record;
use second::refusal::Refusal;
use second::script::{show_bytes, show_record};
use second::write::{chunk, group_bytes};

fn refusal_of(body: &[u8]) -> Refusal {
    read_body(body).err().unwrap_or(REFUSED_NONE)
}

fn strict(body: &[u8], number: u8, place: usize) {
    assert_eq!(refusal_of(body), Refusal { number, place });
    let line = format!("body {}", show_bytes(body));
    assert_eq!(
        answer(line.as_bytes()),
        format!("refused {number} {place}"),
        "{line}"
    );
}

fn listed(body: &[u8], expected: &[(usize, usize, u8)]) {
    assert_eq!(entries_of(body), expected);
    let shown: Vec<String> = expected
        .iter()
        .map(|(place, length, kind)| format!("{place},{length},{kind}"))
        .collect();
    let line = format!("salvage {} 10", show_bytes(body));
    assert_eq!(
        answer(line.as_bytes()),
        format!("ok {} {} kept", expected.len(), shown.join(" "))
    );
}

#[test]
fn example_1_empty_body() {
    assert_eq!(read_body(&[]).unwrap().len(), 0);
    assert_eq!(answer(b"body -"), "ok 0");
    assert_eq!(answer(b"salvage - 0"), "ok 0 kept");
}

#[test]
fn example_2_one_group() {
    let body = m();
    let groups = read_body(&body).unwrap();
    assert_eq!(groups.len(), 1);
    assert_eq!(groups[0].text, b"Main A");
    assert_eq!(read_group(&body, 0, &mut []).unwrap(), (0, &b"Main A"[..]));
    let hex = show_bytes(&body);
    assert_eq!(answer(format!("body {hex}").as_bytes()), "ok 1");
    assert_eq!(
        answer(format!("group {hex} 0 2").as_bytes()),
        "ok 0 4d61696e2041 kept"
    );
}

#[test]
fn example_3_cut_header() {
    strict(&m()[..7], 2, 0);
}

#[test]
fn example_4_empty_group() {
    strict(&chunk(*b"CSEG", &[]), 6, 0);
}

#[test]
fn example_5_child_past_its_group() {
    let mut body = m();
    body[15] = 7;
    strict(&body, 2, 8);
    body.push(0x42);
    strict(&body, 2, 8);
}

#[test]
fn example_6_empty_name() {
    let mut body = m();
    body[21] = b',';
    strict(&body, 8, 8);
}

#[test]
fn example_7_name_in_an_earlier_group() {
    strict(&[m(), m()].concat(), 13, 22);
}

#[test]
fn example_8_loose_byte() {
    let body = [m(), vec![0]].concat();
    strict(&body, 2, 22);
    listed(&body, &[(0, 22, 0), (22, 1, 6)]);
}

#[test]
fn example_9_damaged_tag() {
    let mut damaged = m();
    damaged[0] = 0x44;
    let body = [m(), damaged, n()].concat();
    listed(&body, &[(0, 22, 0), (22, 22, 6), (44, 22, 0)]);
    strict(&body, 6, 22);
}

#[test]
fn example_10_damaged_group_length() {
    let mut body = m();
    body[7] = 0x0F;
    body.extend(n());
    strict(&body, 2, 22);
    listed(&body, &[(0, 22, 2), (22, 22, 0)]);
}

#[test]
fn example_11_root_mask() {
    let mut record = plain_record();
    record[11] = 0x0E;
    record[12] = 0xA3;
    let body = group_bytes(b"Main A", &[record]);
    let hex = show_bytes(&body);
    for root in 0..12 {
        let expected = [0, 1, 5, 7, 9, 10, 11].contains(&root);
        assert_eq!(plays(&record, root, 0), expected, "root {root}");
        let channels = who_plays(&body, b"Main A", root, 0).unwrap();
        assert_eq!(channels, if expected { vec![3] } else { vec![] });
        let line = format!("plays {hex} 4d61696e2041 {root} 0");
        let shown = if expected { "ok 3" } else { "ok" };
        assert_eq!(answer(line.as_bytes()), shown, "root {root}");
    }
}

/// The record of examples 12 to 15: rule 0, no Cntt, source root 0, high key 5, table 01.
fn melody(low: u8, high: u8) -> Record {
    let mut record = plain_record();
    record[18] = 0;
    record[20] = 0;
    record[21] = 1;
    record[22] = 5;
    record[23] = low;
    record[24] = high;
    record
}

fn placed(record: &Record, root: u8, note: u8, expected: u8) {
    assert_eq!(place_note(record, root, note), Ok(expected));
    let line = format!("place {} {root} {note}", show_record(record));
    assert_eq!(answer(line.as_bytes()), format!("ok {expected}"), "{line}");
}

#[test]
fn example_12_high_key() {
    placed(&melody(0, 127), 5, 60, 65);
    placed(&melody(0, 127), 6, 60, 54);
}

#[test]
fn example_13_both_limits() {
    placed(&melody(60, 74), 6, 60, 66);
    placed(&melody(60, 74), 0, 54, 66);
    placed(&melody(60, 74), 0, 84, 72);
    placed(&melody(60, 74), 5, 79, 72);
}

/// Its second half as document 02, §3, corrects it.
#[test]
fn example_14_narrow_limits() {
    placed(&melody(60, 65), 0, 53, 65);
    placed(&melody(60, 65), 0, 54, 54);
    placed(&melody(60, 65), 6, 60, 54);
}

/// Its second half as document 02, §3, corrects it.
#[test]
fn example_15_one_key() {
    placed(&melody(127, 127), 0, 7, 127);
    placed(&melody(127, 127), 0, 8, 116);
}

/// MThd, 6, 00 00 00 01 00 60, MTrk, 4, 00 FF 2F 00, then the CASM section.
fn list_file(casm_body: &[u8]) -> Vec<u8> {
    let mut file = chunk(*b"MThd", &[0, 0, 0, 1, 0, 0x60]);
    file.extend(chunk(*b"MTrk", &[0, 0xFF, 0x2F, 0]));
    file.extend(chunk(*b"CASM", casm_body));
    file
}

#[test]
fn list_example() {
    let file = list_file(&[m(), vec![0]].concat());
    assert_eq!(list(&file), "casm 26 23\n0 22 0\n22 1 6\nend 2\n");
    let line = format!("find {}", show_bytes(&file));
    assert_eq!(answer(line.as_bytes()), "ok 26 23");
}

#[test]
fn list_refusals_and_limits() {
    assert_eq!(list(&[]), "refused 1 0\n");
    assert_eq!(list(&[0; 65_537]), "refused 3 0\n");
    assert_eq!(list(&[0; 65_536]), "refused 1 0\n");
    assert_eq!(list(&list_file(&[])), "casm 26 0\nend 0\n");
    assert_eq!(list(&list_file(&[0; 32_769])), "refused 3 26\n");
    let fullest = list(&list_file(&b"CSEG".repeat(8_192)));
    assert!(fullest.starts_with("casm 26 32768\n0 4 2\n4 4 2\n"));
    assert!(fullest.ends_with("\n32764 4 2\nend 8192\n"));
}
