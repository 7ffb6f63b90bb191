//! The binary itself: `calls`, `list` and `gen` with their standard streams.

use std::io::Write;
use std::process::{Command, Output, Stdio};

fn second(words: &[&str], input: &[u8]) -> Output {
    let mut child = Command::new(env!("CARGO_BIN_EXE_second"))
        .args(words)
        .stdin(Stdio::piped())
        .stdout(Stdio::piped())
        .stderr(Stdio::piped())
        .spawn()
        .unwrap();
    child.stdin.take().unwrap().write_all(input).unwrap();
    child.wait_with_output().unwrap()
}

/// The file of document 01's `list` example.
const LIST_FILE: &[u8] = b"MThd\0\0\0\x06\0\0\0\x01\0\x60MTrk\0\0\0\x04\0\xFF\x2F\0\
    CASM\0\0\0\x17CSEG\0\0\0\x0ESdec\0\0\0\x06Main A\0";

#[test]
fn list_example() {
    let output = second(&["list"], LIST_FILE);
    assert_eq!(output.stdout, b"casm 26 23\n0 22 0\n22 1 6\nend 2\n");
    assert!(output.status.success());
}

#[test]
fn list_of_a_file_that_is_too_long() {
    assert_eq!(second(&["list"], &[0; 65_537]).stdout, b"refused 3 0\n");
    assert_eq!(second(&["list"], &[0; 65_536]).stdout, b"refused 1 0\n");
    assert_eq!(second(&["list"], b"").stdout, b"refused 1 0\n");
}

#[test]
fn calls_answers_line_by_line() {
    let output = second(&["calls"], b"body -\n\xFF\nsalvage 00 1\nfind -");
    assert_eq!(output.stdout, b"ok 0\nbad\nok 1 0,1,6 kept\nrefused 1 0\n");
    assert_eq!(second(&["calls"], b"").stdout, b"");
}

#[test]
fn gen_prints_a_script_and_its_table() {
    let output = second(&["gen", "7", "300", "screen", "place"], b"");
    assert_eq!(
        output.stdout.iter().filter(|&&byte| byte == b'\n').count(),
        300
    );
    let table = String::from_utf8(output.stderr).unwrap();
    let rows: Vec<Vec<&str>> = table.lines().map(|row| row.split(' ').collect()).collect();
    let sum: u64 = rows.iter().map(|row| row[2].parse::<u64>().unwrap()).sum();
    assert_eq!(sum, 300);
    let verbs: Vec<&str> = rows.iter().map(|row| row[0]).collect();
    assert!(verbs.is_sorted());
    assert!(verbs.contains(&"place") && verbs.contains(&"screen"));
    let answers = second(&["calls"], &output.stdout).stdout;
    let bad = answers
        .split(|&byte| byte == b'\n')
        .filter(|line| line == b"bad")
        .count();
    let counted: usize = rows
        .iter()
        .filter(|row| row[1] == "bad")
        .map(|row| row[2].parse::<usize>().unwrap())
        .sum();
    assert_eq!(bad, counted);
}

#[test]
fn words_that_are_not_understood() {
    for words in [
        &[][..],
        &["what"],
        &["gen", "1"],
        &["gen", "x", "1"],
        &["gen", "1", "1", "list"],
    ] {
        let output = second(words, b"");
        assert_eq!(output.status.code(), Some(2));
        assert!(output.stdout.is_empty());
    }
}

/// The files for `list` are as many as asked for, and list, refuse and reach both limits.
#[test]
fn style_files_reach_each_kind_of_answer() {
    let files = second::gen::styles::style_files(7, 300);
    assert_eq!(files.len(), 300);
    let lengths: Vec<usize> = files.iter().map(Vec::len).collect();
    assert!(lengths.contains(&0) && lengths.contains(&65_536) && lengths.contains(&65_537));
    let answers: Vec<String> = files.iter().map(|file| second::list::list(file)).collect();
    for start in [
        "refused 1 0",
        "refused 2 ",
        "refused 3 0",
        "refused 5 ",
        "casm ",
    ] {
        assert!(
            answers.iter().any(|answer| answer.starts_with(start)),
            "{start}"
        );
    }
    let damaged = answers.iter().filter(|answer| {
        let lines: Vec<&str> = answer.lines().collect();
        lines
            .iter()
            .any(|line| line.ends_with(" 0") && line.split(' ').count() == 3)
            && lines
                .iter()
                .any(|line| line.split(' ').count() == 3 && !line.ends_with(" 0"))
    });
    assert!(damaged.count() > 20, "sound groups beside damaged ones");
}

/// The tags of the first records of the sound groups that a file lists, and whether it lists damage.
fn listed_editions(file: &[u8]) -> Option<(bool, bool, bool)> {
    let text = second::list::list(file);
    let mut lines = text.lines();
    let mut casm = lines.next()?.strip_prefix("casm ")?.split(' ');
    let body = &file[casm.next()?.parse::<usize>().ok()? + 8..];
    let (mut first, mut second, mut damaged) = (false, false, false);
    for line in lines {
        let entry: Vec<usize> = line
            .split(' ')
            .filter_map(|word| word.parse().ok())
            .collect();
        if let [place, _, kind] = entry[..] {
            let behind_text = place + 16 + usize::from(body[(place + 15).min(body.len() - 1)]);
            let record = body.get(behind_text..behind_text + 4);
            first |= kind == 0 && record == Some(b"Ctab");
            second |= kind == 0 && record == Some(b"Ctb2");
            damaged |= kind != 0;
        }
    }
    Some((first, second, damaged))
}

/// Files with groups of each edition alone and of both, sound and beside damage.
#[test]
fn style_files_hold_both_editions() {
    let files = second::gen::styles::style_files(9, 320);
    let reached: Vec<_> = files
        .iter()
        .filter_map(|file| listed_editions(file))
        .collect();
    for (first, second) in [(true, false), (false, true), (true, true)] {
        for damaged in [false, true] {
            let like = reached
                .iter()
                .filter(|&&kind| kind == (first, second, damaged));
            assert!(like.count() > 1, "{first} {second} {damaged}");
        }
    }
}
