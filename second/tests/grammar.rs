//! The grammar of the protocol: forms of BYTES, REC and numbers, lines that are `bad`, and
//! whole scripts through `calls`.

mod common;

use common::{m, plain_record};
use second::calls::{answer, calls};
use second::gen::cntts::{at_position, with_cntt};
use second::script::{bytes, number, record, show_bytes, show_record};

fn is(line: &str, expected: &str) {
    assert_eq!(answer(line.as_bytes()), expected, "{line}");
}

fn run(script: &[u8]) -> String {
    let mut answers = Vec::new();
    calls(script, &mut answers).unwrap();
    String::from_utf8(answers).unwrap()
}

/// BYTES that break the grammar.
const BAD_BYTES: [&str; 29] = [
    "",
    "0",
    "000",
    "0g",
    "FF",
    "aB",
    "--",
    "-+00",
    "00+-",
    "+",
    "00+",
    "+00",
    "00++00",
    "*",
    "*2",
    "00*",
    "00**2",
    "00*2*3",
    "00*a",
    "00*-1",
    "00* 1",
    "00*1048578",
    "00*1048577+00",
    "0000*524289",
    "00*4294967295",
    "00*4294967296",
    "00*99999999999999999999",
    "0x00",
    "00,00",
];

#[test]
fn forms_of_bytes() {
    assert_eq!(bytes(b"-"), Some(vec![]));
    assert_eq!(bytes(b"4353+00*6"), Some(b"CS\0\0\0\0\0\0".to_vec()));
    assert_eq!(bytes(b"0102*3"), Some(vec![1, 2, 1, 2, 1, 2]));
    assert_eq!(bytes(b"ff*0"), Some(vec![]));
    assert_eq!(bytes(b"ff*0+01*0001+02"), Some(vec![1, 2]));
    assert_eq!(bytes(b"00*1048577").map(|held| held.len()), Some(1_048_577));
    assert_eq!(
        bytes(b"00*1048577+00*0").map(|held| held.len()),
        Some(1_048_577)
    );
    for bad in BAD_BYTES {
        assert_eq!(bytes(bad.as_bytes()), None, "{bad}");
    }
}

#[test]
fn forms_of_numbers() {
    assert_eq!(number(b"0"), Some(0));
    assert_eq!(number(b"4294967295"), Some(u32::MAX));
    assert_eq!(number(b"00000000000000000000000000012"), Some(12));
    for bad in [
        "",
        "4294967296",
        "99999999999999999999999",
        "-1",
        "+1",
        "1.0",
        "0x1",
        "1a",
        " 1",
    ] {
        assert_eq!(number(bad.as_bytes()), None, "{bad}");
    }
}

#[test]
fn forms_of_records() {
    let plain = plain_record();
    let shown = show_record(&plain);
    assert_eq!(shown.len(), 56);
    assert!(shown.ends_with(":-:0"));
    assert_eq!(record(shown.as_bytes()), Some(plain));
    let plain = at_position(with_cntt(plain, Some(0x8A)), 255);
    let with_cntt = show_record(&plain);
    assert!(with_cntt.ends_with(":8a:255"));
    assert_eq!(record(with_cntt.as_bytes()), Some(plain));
    let digits = &shown[..52];
    for bad in [
        String::new(),
        "-".to_string(),
        ":-:0".to_string(),
        digits.to_string(),
        format!("{digits}--"),
        format!("{}:-:0", &digits[2..]),
        format!("{digits}00:-:0"),
        format!("{}g:-:0", &digits[1..]),
    ] {
        assert_eq!(record(bad.as_bytes()), None, "{bad}");
    }
    for bad in BAD_RECORD_ENDS {
        let token = format!("{digits}:{bad}");
        assert_eq!(record(token.as_bytes()), None, "{bad}");
        is(&format!("screen {token} 0 0"), "bad");
    }
}

/// What may not stand behind the 52 digits and their `:`; the first two are the old form.
const BAD_RECORD_ENDS: [&str; 30] = [
    "-",
    "84",
    "",
    "8",
    "8A",
    "8a0",
    "-0",
    ":",
    "-:",
    "84:",
    ":0",
    "8:0",
    "8A:0",
    "8a0:0",
    "--:0",
    "-:-",
    "84:-1",
    "84:+1",
    "84: 1",
    "84:x",
    "84:1x",
    "84:0x1",
    "84:ff",
    "84:1.0",
    "84:256",
    "84:1000",
    "84:4294967297",
    "84:1:",
    "84:1:1",
    "0:-",
];

#[test]
fn forms_of_positions() {
    let digits = &show_record(&plain_record())[..52];
    for (end, second_table, position) in [
        ("-:0", None, 0),
        ("84:2", Some(0x84), 2),
        ("84:0", Some(0x84), 0),
        ("-:16", None, 16),
        ("ff:255", Some(0xFF), 255),
        ("00:007", Some(0), 7),
        ("-:000000000000000000000000000000238", None, 238),
    ] {
        let expected = at_position(with_cntt(plain_record(), second_table), position);
        let token = format!("{digits}:{end}");
        assert_eq!(record(token.as_bytes()), Some(expected), "{end}");
        let kept = show_record(&expected);
        is(
            &format!("screen {token} 26 0"),
            &format!("refused 16 0 {kept}"),
        );
        is(&format!("screen {token} 0 3"), &format!("ok {kept}"));
    }
}

/// Lines that break the grammar, whatever their verb.
const BAD_LINES: [&str; 78] = [
    "",
    " ",
    "body",
    "body ",
    "body  -",
    " body -",
    "body - ",
    "body -\t",
    "body\t-",
    "Body -",
    "BODY -",
    "body - -",
    "find",
    "find - 0",
    "group - 0",
    "group - 0 33",
    "group - 0 0 0",
    "group - -1 0",
    "voice - 0 256",
    "voice - 0",
    "plays - - 256 0",
    "plays - - 0 256",
    "plays - - 0",
    "place - 0 0",
    "write 41 0",
    "write 41 0 2049",
    "write - 4294967296 0",
    "edit - 0 0",
    "edit - 0 256 -",
    "edit - 0 0 - 0",
    "screen - 0 0",
    "salvage -",
    "salvage - 8193",
    "part -",
    "part - - -",
    "part - 4",
    "part - Main",
    "part - --",
    "where -",
    "where - 0 0",
    "where - -1",
    "where - 4294967296",
    "where 0 0",
    "channel - 0",
    "channel - 0 256",
    "channel - 4294967296 0",
    "channel - 0 0 0",
    "Channel - 0 0",
    "checked - - 0",
    "checked - 0 0",
    "checked - - 0 256",
    "checked - - 4294967296 0",
    "checked - - 0 0 0",
    "checked - - 0 0 ",
    "checked -  - 0 0",
    "checked - 0 0 0",
    "checked 0 - 0 0",
    "checked - 00*1048578 0 0",
    "checked 00*1048578 - 0 0",
    "checked 00*1048577 00*1048578 0 0",
    "checkedfile - - 0",
    "checkedfile - - 0 256",
    "checkedfile - - 4294967296 0",
    "checkedfile - - 0 0 0",
    "checkedfile - - 0 0 ",
    "checkedfile - 0 0 0",
    "checkedfile 0 - 0 0",
    "checkedfile - 00*1048578 0 0",
    "checkedfile 00*1048578 - 0 0",
    "checkedfiles - - 0 0",
    "checkedFile - - 0 0",
    "check - - 0 0",
    "editfile - 41 0 0",
    "Checked - - 0 0",
    "list -",
    "body 00\r",
    "#",
    "ok 0",
];

#[test]
fn lines_that_are_bad() {
    for line in BAD_LINES {
        is(line, "bad");
    }
    let rec = show_record(&plain_record());
    for line in [
        format!("place {rec} 0 256"),
        format!("place {rec} 256 0"),
        format!("place {rec} 0"),
        format!("place {rec} 0 0 0"),
        format!("edit - 0 0 {rec}"),
        format!("edit - 0 0 {rec} 2"),
        format!("edit - 0 0 {rec} 255"),
        format!("edit - 0 0 {rec} 256"),
        format!("edit - 0 0 {rec} -1"),
        format!("edit - 0 0 {rec} x"),
        format!("edit - 0 0 {rec} -"),
        format!("edit - 0 0 {rec} "),
        format!("edit - 0 0 {rec} 0 0"),
        format!("edit - 0 0 0 {rec}"),
        format!("edit - 0 256 {rec} 0"),
        format!("editfile - 41 0 {rec}"),
        format!("editfile - 41 0 {rec} 0"),
        format!("editfile - 41 0 2 {rec}"),
        format!("editfile - 41 0 255 {rec}"),
        format!("editfile - 41 0 -1 {rec}"),
        format!("editfile - 41 0 - {rec}"),
        format!("editfile - 41 256 0 {rec}"),
        format!("editfile - 41 - 0 {rec}"),
        format!("editfile - 4 0 0 {rec}"),
        format!("editfile 0 41 0 0 {rec}"),
        format!("editfile - 41 0 0 {rec} "),
        format!("editfile - 41 0 0 {rec} 0"),
        format!("editfile - 41 0 0  {rec}"),
        format!("editfile - 41 0 0 {}", &rec[2..]),
        format!("editfile 00*1048578 41 0 0 {rec}"),
        format!("editfile - 00*1048578 0 0 {rec}"),
        format!("editfiles - 41 0 0 {rec}"),
        format!("editFile - 41 0 0 {rec}"),
        format!("screen {rec} 0 256"),
        format!("screen {rec} 0 0 1"),
        format!("screen {rec} 4294967296 0"),
        format!("write 41 0 60{}", format!(" {rec}").repeat(33)),
        format!("write 41 0 60 {rec} -"),
        format!("write 41 0 60 {rec} "),
    ] {
        is(&line, "bad");
    }
}

#[test]
fn lines_at_the_edge_of_the_grammar() {
    let rec = show_record(&plain_record());
    is("group - 4294967295 32", "refused 16 0 kept");
    is("group - 0000 00", "refused 16 0 kept");
    is("salvage - 8192", "ok 0 kept");
    is("voice - 0 255", "refused 16 0");
    is("plays - - 255 255", "refused 16 0");
    is("plays - - 0 0", "refused 15 0");
    is("part - -", "refused 15 0");
    is("part - 00*1048577", "refused 15 0");
    is("part - 00*1048578", "bad");
    is("where - 4294967295", "refused 16 0");
    is("where 00*32769 4294967295", "refused 3 0");
    is("channel - 4294967295 255", "refused 16 0");
    is(
        &format!("screen {rec} 4294967295 255"),
        &format!("refused 16 0 {rec}"),
    );
    is(
        &format!("write - 33 0{}", format!(" {rec}").repeat(32)),
        "refused 16 0 -",
    );
    is("write - 0 2", "refused 8 0 aaaa");
    is("write - 1 2", "refused 16 0 aaaa");
    for over in ["0", "1", "00", "01", "0000000000000000000000000001"] {
        is(&format!("edit - 0 0 {rec} {over}"), "refused 16 0 -");
    }
    for over in ["0", "1", "00", "01", "0000000000000000000000000001"] {
        let line = format!("editfile - - 255 {over} {rec}");
        is(&line, "refused 1 0 -");
    }
    is(
        &format!("editfile 00 00*1048577 0 0 {rec}"),
        "refused 1 0 00",
    );
    is("checked - - 4294967295 255", "refused 16 0 before");
    is("checked 00*1048577 00*1048577 0 0", "refused 3 0 before");
    is("checked - 00*1048577 0 0", "refused 3 0 after");
    is("checkedfile - - 4294967295 255", "refused 1 0 beforefile");
    is(
        "checkedfile 00*1048577 00*1048577 0 0",
        "refused 3 0 beforefile",
    );
    is("checkedfile - 00*1048577 0 0", "refused 1 0 beforefile");
    is("body 00*1048577", "refused 3 0");
    is("body 00*1048578", "bad");
}

#[test]
fn long_lines() {
    let line = |length: usize| {
        let mut line = b"body 00*".to_vec();
        line.resize(length, b'0');
        answer(&line)
    };
    assert_eq!(line(2_200_000), "ok 0");
    assert_eq!(line(2_200_001), "bad");
    let two = |zeros: usize| {
        let part = format!("00*{}", "0".repeat(zeros));
        answer(format!("checked {part} {part} 0 0").as_bytes())
    };
    assert_eq!(two(1_099_990), "refused 16 0 before");
    assert_eq!(two(1_099_991), "bad");
}

#[test]
fn bytes_that_are_no_text_are_bad() {
    assert_eq!(answer(b"body \xFF\xFE"), "bad");
    assert_eq!(answer(b"\xC3\x28 -"), "bad");
    assert_eq!(answer(b"body 00\0"), "bad");
    assert_eq!(run(b"\xFF\nbody -\n"), "bad\nok 0\n");
}

#[test]
fn whole_scripts() {
    assert_eq!(run(b""), "");
    assert_eq!(run(b"\n"), "bad\n");
    assert_eq!(run(b"body -"), "ok 0\n");
    assert_eq!(run(b"body -\nbody -"), "ok 0\nok 0\n");
    assert_eq!(run(b"x\n\nbody -\n"), "bad\nbad\nok 0\n");
}

#[test]
fn one_answer_of_each_verb() {
    let record = plain_record();
    let rec = show_record(&record);
    let body = second::write::group_bytes(b"Main A", &[record]);
    let hex = show_bytes(&body);
    assert_eq!(body.len(), m().len() + 35);
    is(&format!("body {hex}"), "ok 1");
    is(
        &format!("group {hex} 0 2"),
        &format!("ok 1 4d61696e2041 {rec} kept"),
    );
    is(&format!("group {hex} 0 0"), "refused 14 0 kept");
    let shuffled = [(7, 2), (3, 1)].map(|(channel, position)| {
        let mut record = plain_record();
        record[0] = channel;
        at_position(with_cntt(record, Some(0x84)), position)
    });
    let two = show_bytes(&second::write::group_bytes(b"A", &shuffled));
    let [seven, three] = shuffled.map(|record| show_record(&record));
    assert!(seven.ends_with(":84:2") && three.ends_with(":84:1"));
    is(
        &format!("group {two} 0 3"),
        &format!("ok 2 41 {seven} {three} kept"),
    );
    is(
        &format!("write 41 2 107 {seven} {three}"),
        &format!("ok 107 {two}"),
    );
    is(
        &format!("write 41 1 2 {seven} {three}"),
        "refused 18 0 aaaa",
    );
    is(&format!("place {seven} 5 60"), "ok 65");
    is(&format!("voice {hex} 0 3"), "ok 5069616e6f");
    is(&format!("voice {hex} 0 16"), "refused 15 0");
    is(&format!("plays {hex} 4d61696e2041 0 0"), "ok 3");
    is(&format!("place {rec} 5 60"), "ok 65");
    is(
        &format!("write 4d61696e2041 1 57 {rec}"),
        &format!("ok 57 {hex}"),
    );
    is(
        &format!("write 4d61696e2041 1 58 {rec}"),
        &format!("ok 57 {hex}aa"),
    );
    is(
        &format!("write 4d61696e2041 1 56 {rec}"),
        &format!("refused 14 0 {}", "aa".repeat(56)),
    );
    is(&format!("edit {hex} 0 3 {rec} 0"), &format!("ok {hex}"));
    is(&format!("edit {hex} 0 3 {rec} 1"), &format!("ok {hex}"));
    is(
        &format!("screen {rec} 0 15"),
        &format!("ok 0f{}", &rec[2..]),
    );
    is(&format!("screen {rec} 0 16"), &format!("refused 9 0 {rec}"));
    is(&format!("part {hex} 4d61696e2041"), "ok 0");
    is(&format!("part {hex} 4d61696e"), "refused 15 0");
    is(&format!("where {hex} 0"), "ok 0 57 16 6 22 1 57 0 1");
    is(&format!("where {hex} 1"), "refused 16 0");
    is(&format!("channel {hex} 0 3"), "ok 0 30");
    is(&format!("channel {hex} 0 255"), "refused 15 0");
    is(&format!("checked {hex} {hex} 0 3"), "ok yes");
    is(&format!("checked {hex} - 0 3"), "ok no 0");
    is(&format!("checked {hex} {hex} 0 2"), "refused 15 0 before");
    is(&format!("checked {hex} {hex}00 0 3"), "refused 2 57 after");
    let start = "4d546864000000060000000100604d54726b000000004341534d";
    let file = format!("{start}00000039{hex}");
    is(&format!("checkedfile {file} {file} 0 3"), "ok yes");
    is(
        &format!("checkedfile {file} {start}00000000 0 3"),
        "ok no 29",
    );
    is(
        &format!("checkedfile {file} {file} 1 3"),
        "refused 16 0 before",
    );
    is(
        &format!("checkedfile {file} {start}00000001+00 0 3"),
        "refused 2 30 after",
    );
    is(
        &format!("checkedfile {file} {file}00 0 3"),
        "refused 2 87 afterfile",
    );
    is(&format!("salvage {hex}00 2"), "ok 2 0,57,0 57,1,6 kept");
    is(&format!("salvage {hex}00 1"), "refused 14 0 kept");
}
