//! Lines that break the grammar of the protocol, some for each verb, and beside them lines
//! that only look as if they did.

use crate::gen::ctb2;
use crate::gen::sound::plain;
use crate::gen::spell::{rec, Line};

/// What a verb's tokens are, by example; each alone is sound.
fn tokens(verb: &str) -> Vec<String> {
    let record = rec(&plain(3));
    let group = "4353454700000009536465630000000141";
    let file = "4d546864000000060000000100604d54726b000000004341534d00000000";
    let words: Vec<&str> = match verb {
        "find" | "body" | "entry" => vec![group],
        "group" => vec![group, "0", "3"],
        "voice" | "channel" => vec![group, "0", "4"],
        "part" => vec![group, "41"],
        "where" | "site" => vec![group, "0"],
        "section" => vec![file, "0"],
        "plays" => vec![group, "41", "0", "0"],
        "checked" => vec![group, group, "0", "4"],
        "checkedfile" => vec![file, file, "0", "4"],
        "place" => vec![&record, "0", "60"],
        "write" => vec!["41", "1", "60", &record],
        "edit" => vec![group, "0", "3", &record, "0"],
        "editfile" => vec![file, "41", "3", "0", &record],
        "screen" => vec![&record, "0", "3"],
        _ => vec![group, "9"],
    };
    words.into_iter().map(str::to_string).collect()
}

/// BYTES that break the grammar, and the last few that do not.
const BYTES: [&str; 25] = [
    "--",
    "-+00",
    "00+-",
    "00++00",
    "+00",
    "00+",
    "0",
    "000",
    "0G",
    "4A",
    "FF",
    "*3",
    "00*",
    "00*x",
    "00*-1",
    "00*+1",
    "00*1*2",
    "00*4294967296",
    "00*1048578",
    "0x00",
    "00*1048577+00",
    "00*0",
    "00*00002",
    "41*1",
    "00+41*0",
];

/// Numbers that break the grammar, and the last few that do not.
const NUMBERS: [&str; 12] = [
    "-1",
    "+1",
    "x",
    "1x",
    "0x1",
    "1.0",
    "4294967296",
    "18446744073709551616",
    "-",
    "00000000000000000000000000000000000000",
    "00",
    "0003",
];

/// Numbers above what a byte, a room of records, of entries or of bytes may be.
const GREAT: [&str; 8] = [
    "33",
    "256",
    "2048",
    "2049",
    "8192",
    "8193",
    "4294967295",
    "000255",
];

/// OVERRIDEs that break the grammar, and the last few that do not.
pub const OVERRIDES: [&str; 14] = [
    "2",
    "3",
    "10",
    "02",
    "255",
    "4294967297",
    "-1",
    "x",
    "-",
    "0 0",
    "1 1",
    "00",
    "01",
    "0000001",
];

/// Changes of a whole line behind its verb.
fn line_changes(sound: &str) -> Vec<String> {
    let (verb, rest) = sound.split_once(' ').unwrap_or((sound, ""));
    vec![
        verb.to_string(),
        format!("{verb} "),
        format!("{verb}  {rest}"),
        format!("{verb}\t{rest}"),
        format!("{verb} {rest} "),
        format!("{verb} {rest} 0"),
        format!("{verb} {rest}\t"),
        format!("{verb} {rest}\r"),
        sound
            .rsplit_once(' ')
            .map_or(verb, |(start, _)| start)
            .to_string(),
    ]
}

fn second_is_bytes(verb: &str) -> bool {
    matches!(
        verb,
        "plays" | "part" | "checked" | "checkedfile" | "editfile"
    )
}

pub fn broken(verb: &str) -> Vec<Line> {
    let sound = tokens(verb);
    let join = |words: &[String]| format!("{verb} {}", words.join(" "));
    let mut lines = line_changes(&join(&sound));
    for number in 0..sound.len() {
        let word = &sound[number];
        let mut with = |other: String| {
            let mut words = sound.clone();
            words[number] = other;
            lines.push(join(&words));
        };
        if word.contains(':') {
            records(word).into_iter().for_each(&mut with);
        } else if number == 0 || (number == 1 && second_is_bytes(verb)) {
            BYTES.iter().for_each(|token| with(token.to_string()));
        } else {
            NUMBERS.iter().for_each(|token| with(token.to_string()));
            GREAT.iter().for_each(|token| with(token.to_string()));
        }
        if matches!((verb, number), ("edit", 4) | ("editfile", 3)) {
            OVERRIDES.iter().for_each(|token| with(token.to_string()));
        }
    }
    if verb == "write" {
        let record = rec(&plain(3));
        for count in [31, 32, 33] {
            lines.push(format!(
                "write 41 0 60{}",
                format!(" {record}").repeat(count)
            ));
        }
    }
    lines.into_iter().map(String::into_bytes).collect()
}

/// RECs that break the grammar, the old form with two parts and near misses of the second edition
/// among them, and the last few that do not.
fn records(sound: &str) -> Vec<String> {
    let digits = &sound[..52];
    let second = rec(&ctb2::plain(3));
    let mut list = vec![
        second.clone(),
        format!("{second}:-:0"),
        format!("{second}:84:1"),
        format!("{second}:"),
        format!("{second}-"),
        format!("{second}00"),
        second[2..].to_string(),
        second[1..].to_string(),
        second.to_uppercase(),
        second.replace('f', "g"),
        format!("{}:-:0", &second[..52]),
        format!("{}:{}", &second[..52], &second[52..]),
        "00".repeat(27),
        "00".repeat(46),
        "00".repeat(47),
        "ff".repeat(48),
        digits.to_string(),
        format!("{digits}-"),
        format!("{}:-:0", &digits[2..]),
        format!("{digits}00:-:0"),
        format!("{}:-:0", digits.to_uppercase()),
        format!("{}:-:0", digits.replace('f', "g")),
        format!("{}:-:0", &digits[1..]),
        "-".to_string(),
        ":-:0".to_string(),
        format!("{digits}::-:0"),
    ];
    for rest in [
        "",
        "-",
        "84",
        "8",
        "8A",
        "800",
        "--",
        "-:",
        "84:",
        ":",
        ":0",
        "8:1",
        "8A:1",
        "800:1",
        "--:0",
        "-0",
        "840",
        "-:-",
        "84:-",
        "84:-1",
        "84:+1",
        "84:x",
        "84:1x",
        "84:0x1",
        "84:a",
        "84:256",
        "84:1000",
        "84:4294967296",
        "84:4294967297",
        "84:18446744073709551617",
        "84:1:",
        "84:1:1",
        "-:0:0",
        "84:1.0",
        "0:-",
        "1:84",
        "-:0",
        "84:1",
        "84:255",
        "-:255",
        "84:001",
        "84:00000000000000000000000000000001",
        "-:000255",
    ] {
        list.push(format!("{digits}:{rest}"));
    }
    list
}

/// Lines of no verb; they are printed where no verb is named.
pub fn verbless() -> Vec<Line> {
    let lines: [&[u8]; 17] = [
        b"",
        b" ",
        b"\t",
        b"-",
        b"Find -",
        b"BODY -",
        b" body -",
        b"body- -",
        b"bodies -",
        b"list -",
        b"bod -",
        b"parts - 41",
        b"Where - 0",
        b"channe - 0 0",
        b"\r",
        b"\xFF\xFE",
        b"\xC3\xA9 00",
    ];
    lines.iter().map(|line| line.to_vec()).collect()
}

/// The longest line that is read, and one character more.
pub fn long_lines() -> Vec<Line> {
    let of = |length: usize| {
        let mut line = b"find 00*".to_vec();
        line.resize(length - 1, b'0');
        line.push(b'9');
        line
    };
    vec![of(2_200_000), of(2_200_001)]
}
