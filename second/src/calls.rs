//! The program `calls`: one answer line for each script line, each from one call of the
//! library on lent memory that starts out as a sentinel.

use crate::body::{read_body, read_group};
use crate::check::{check, check_files, Check, Checked, Which};
use crate::edit::{edit, edit_file};
use crate::edition::{Edition, FIELDS};
use crate::entry::entry;
use crate::list::LIST_ROOM;
use crate::lookup::{find_channel, find_group, find_part};
use crate::place::place_note;
use crate::plays::who_plays;
use crate::record::{First, Record};
use crate::refusal::{Answer, Refusal};
use crate::salvage::{salvage, Entry};
use crate::screen::set_field;
use crate::script::{
    byte, bytes, number, overriding, record, room, show_bytes, show_record, tokens,
};
use crate::section::section;
use crate::site::site;
use crate::style::find;
use crate::voice::voice_name;
use crate::write::write_group;
use std::fmt::Write as _;
use std::io::{self, BufRead, Write};

/// The verbs of the protocol, in its order.
pub const VERBS: [&str; 13] = [
    "find", "body", "group", "voice", "plays", "place", "write", "edit", "screen", "part", "where",
    "channel", "salvage",
];

/// The verbs that a generated script has only where they are named, so that one of no named verb
/// stays as it was before they came.
pub const ONLY_NAMED: [&str; 6] = [
    "checked",
    "checkedfile",
    "section",
    "entry",
    "site",
    "editfile",
];

/// The most that a line may lend.
pub const RECORD_ROOM: usize = 32;
pub const WRITE_ROOM: usize = 2_048;

/// The sentinels of lent memory.
const LENT_BYTE: u8 = 0xAA;
const LENT_RECORD: Record = Record::First(First {
    bytes: [0xEE; FIELDS],
    second_table: None,
    position: 238,
});
const LENT_ENTRY: Entry = Entry {
    place: 7,
    length: 7,
    kind: 7,
};

/// Answers a whole script.
pub fn calls(mut script: impl BufRead, mut answers: impl Write) -> io::Result<()> {
    let mut line = Vec::new();
    while script.read_until(b'\n', &mut line)? > 0 {
        if line.last() == Some(&b'\n') {
            line.pop();
        }
        writeln!(answers, "{}", answer(&line))?;
        line.clear();
    }
    answers.flush()
}

/// The answer to one line, without its newline.
pub fn answer(line: &[u8]) -> String {
    tokens(line)
        .and_then(|tokens| run(&tokens))
        .unwrap_or_else(|| "bad".to_string())
}

/// Makes the call of a line; none where the line breaks the grammar.
fn run(tokens: &[&[u8]]) -> Option<String> {
    match (tokens[0], &tokens[1..]) {
        (b"find", &[file]) => Some(run_find(&bytes(file)?)),
        (b"body", &[body]) => Some(run_body(&bytes(body)?)),
        (b"group", &[body, group, lent]) => Some(run_group(
            &bytes(body)?,
            number(group)?,
            room(lent, RECORD_ROOM)?,
        )),
        (b"voice", &[body, group, channel]) => {
            Some(run_voice(&bytes(body)?, number(group)?, byte(channel)?))
        }
        (b"plays", &[body, part, root, chord_type]) => Some(run_plays(
            &bytes(body)?,
            &bytes(part)?,
            byte(root)?,
            byte(chord_type)?,
        )),
        (b"place", &[rec, root, note]) => Some(run_place(&record(rec)?, byte(root)?, byte(note)?)),
        (b"write", &[text, count, lent, ref records @ ..]) => run_write(
            &bytes(text)?,
            number(count)?,
            room(lent, WRITE_ROOM)?,
            records,
        ),
        (b"edit", &[body, group, channel, rec, over]) => Some(run_edit(
            bytes(body)?,
            number(group)?,
            byte(channel)?,
            &record(rec)?,
            overriding(over)?,
        )),
        (b"editfile", &[file, part, channel, over, rec]) => Some(run_edit_file(
            bytes(file)?,
            &bytes(part)?,
            byte(channel)?,
            overriding(over)?,
            &record(rec)?,
        )),
        (b"screen", &[rec, index, value]) => {
            Some(run_screen(record(rec)?, number(index)?, byte(value)?))
        }
        (b"part", &[body, part]) => Some(run_part(&bytes(body)?, &bytes(part)?)),
        (b"where", &[body, group]) => Some(run_where(&bytes(body)?, number(group)?)),
        (b"channel", &[body, group, channel]) => {
            Some(run_channel(&bytes(body)?, number(group)?, byte(channel)?))
        }
        (b"checked", &[before, after, group, channel]) => Some(show_check(check(
            &bytes(before)?,
            &bytes(after)?,
            number(group)?,
            byte(channel)?,
        ))),
        (b"checkedfile", &[before, after, group, channel]) => Some(show_check(check_files(
            &bytes(before)?,
            &bytes(after)?,
            number(group)?,
            byte(channel)?,
        ))),
        (b"section", &[file, at]) => Some(run_section(&bytes(file)?, number(at)?)),
        (b"entry", &[piece]) => Some(run_entry(&bytes(piece)?)),
        (b"site", &[body, place]) => Some(run_site(&bytes(body)?, number(place)?)),
        (b"salvage", &[body, lent]) => Some(run_salvage(&bytes(body)?, room(lent, LIST_ROOM)?)),
        _ => None,
    }
}

fn refused(refusal: Refusal) -> String {
    format!("refused {} {}", refusal.number, refusal.place)
}

/// Whether all of this lent memory still is its sentinel.
fn kept<T: PartialEq>(lent: &[T], sentinel: T) -> &'static str {
    if lent.iter().all(|room| *room == sentinel) {
        "kept"
    } else {
        "changed"
    }
}

fn run_find(file: &[u8]) -> String {
    match find(file) {
        Ok(found) => format!("ok {} {}", found.tag_place, found.body_length),
        Err(refusal) => refused(refusal),
    }
}

fn run_body(body: &[u8]) -> String {
    match read_body(body) {
        Ok(groups) => format!("ok {}", groups.len()),
        Err(refusal) => refused(refusal),
    }
}

fn run_group(body: &[u8], group: u32, room: usize) -> String {
    let mut lent = vec![LENT_RECORD; room];
    match read_group(body, group, &mut lent) {
        Ok((count, text)) => {
            let mut answer = format!("ok {count} {}", show_bytes(text));
            for record in &lent[..count] {
                let _ = write!(answer, " {}", show_record(record));
            }
            format!("{answer} {}", kept(&lent[count..], LENT_RECORD))
        }
        Err(refusal) => format!("{} {}", refused(refusal), kept(&lent, LENT_RECORD)),
    }
}

fn run_voice(body: &[u8], group: u32, channel: u8) -> String {
    match voice_name(body, group, channel) {
        Ok(name) => format!("ok {}", show_bytes(name)),
        Err(refusal) => refused(refusal),
    }
}

fn run_plays(body: &[u8], part: &[u8], root: u8, chord_type: u8) -> String {
    match who_plays(body, part, root, chord_type) {
        Ok(channels) => {
            let mut answer = "ok".to_string();
            for channel in channels {
                let _ = write!(answer, " {channel}");
            }
            answer
        }
        Err(refusal) => refused(refusal),
    }
}

fn run_place(record: &Record, root: u8, note: u8) -> String {
    match place_note(record, root, note) {
        Ok(note) => format!("ok {note}"),
        Err(refusal) => refused(refusal),
    }
}

fn run_write(text: &[u8], count: u32, room: usize, records: &[&[u8]]) -> Option<String> {
    if records.len() > RECORD_ROOM {
        return None;
    }
    let table: Vec<Record> = records
        .iter()
        .map(|token| record(token))
        .collect::<Option<_>>()?;
    let mut lent = vec![LENT_BYTE; room];
    let result = match write_group(text, &table, count, &mut lent) {
        Ok(length) => format!("ok {length}"),
        Err(refusal) => refused(refusal),
    };
    Some(format!("{result} {}", show_bytes(&lent)))
}

fn run_edit(mut body: Vec<u8>, group: u32, channel: u8, record: &Record, over: bool) -> String {
    let answer = edit(&mut body, group, channel, record, over);
    show_edit(answer, &body)
}

fn run_edit_file(
    mut file: Vec<u8>,
    part: &[u8],
    channel: u8,
    over: bool,
    record: &Record,
) -> String {
    let answer = edit_file(&mut file, part, channel, record, over);
    show_edit(answer, &file)
}

/// The answer of an edit, and all lent bytes after it.
fn show_edit(answer: Answer<()>, lent: &[u8]) -> String {
    let result = match answer {
        Ok(()) => "ok".to_string(),
        Err(refusal) => refused(refusal),
    };
    format!("{result} {}", show_bytes(lent))
}

fn run_screen(mut record: Record, index: u32, value: u8) -> String {
    let result = match set_field(&mut record, index, value) {
        Ok(()) => "ok".to_string(),
        Err(refusal) => refused(refusal),
    };
    format!("{result} {}", show_record(&record))
}

fn run_part(body: &[u8], part: &[u8]) -> String {
    match find_part(body, part) {
        Ok(number) => format!("ok {number}"),
        Err(refusal) => refused(refusal),
    }
}

/// The number of a group's edition: "1 or 2, and 0 for a group without records".
fn edition_number(edition: Option<Edition>) -> u8 {
    match edition {
        None => 0,
        Some(Edition::First) => 1,
        Some(Edition::Second) => 2,
    }
}

fn run_where(body: &[u8], group: u32) -> String {
    match find_group(body, group) {
        Ok(found) => format!(
            "ok {} {} {} {} {} {} {} {} {}",
            found.place,
            found.size,
            found.text,
            found.text_length,
            found.records.place,
            found.records.count,
            found.cntts.place,
            found.cntts.count,
            edition_number(found.edition),
        ),
        Err(refusal) => refused(refusal),
    }
}

fn run_channel(body: &[u8], group: u32, channel: u8) -> String {
    match find_channel(body, group, channel) {
        Ok((number, place)) => format!("ok {number} {place}"),
        Err(refusal) => refused(refusal),
    }
}

fn show_check(answer: Check) -> String {
    match answer {
        Ok(Checked::Yes) => "ok yes".to_string(),
        Ok(Checked::No(place)) => format!("ok no {place}"),
        Err((refusal, which)) => format!("{} {}", refused(refusal), which_word(which)),
    }
}

/// WHICH: the word for what a check's refusal speaks of.
fn which_word(which: Which) -> &'static str {
    match which {
        Which::BeforeFile => "beforefile",
        Which::AfterFile => "afterfile",
        Which::Before => "before",
        Which::After => "after",
    }
}

fn run_salvage(body: &[u8], room: usize) -> String {
    let mut lent = vec![LENT_ENTRY; room];
    match salvage(body, &mut lent) {
        Ok(count) => {
            let mut answer = format!("ok {count}");
            for entry in &lent[..count] {
                let _ = write!(answer, " {},{},{}", entry.place, entry.length, entry.kind);
            }
            format!("{answer} {}", kept(&lent[count..], LENT_ENTRY))
        }
        Err(refusal) => format!("{} {}", refused(refusal), kept(&lent, LENT_ENTRY)),
    }
}

fn run_section(file: &[u8], at: u32) -> String {
    match section(file, at) {
        Ok(length) => format!("ok {length}"),
        Err(refusal) => refused(refusal),
    }
}

fn run_entry(piece: &[u8]) -> String {
    match entry(piece) {
        Ok(size) => format!("ok {size}"),
        Err(refusal) => refused(refusal),
    }
}

fn run_site(body: &[u8], place: u32) -> String {
    match site(body, place) {
        Ok(found) => format!("ok {} {} {}", found.group, found.child, found.chunk),
        Err(refusal) => refused(refusal),
    }
}

#[cfg(test)]
mod tests {
    use super::*;
    use crate::edition::CTB2_BYTES;

    #[test]
    fn kept_looks_at_the_memory() {
        assert_eq!(kept(&[LENT_ENTRY; 2], LENT_ENTRY), "kept");
        assert_eq!(kept(&[], LENT_RECORD), "kept");
        let first = |position, second_table, byte| {
            let mut bytes = [0xEE; FIELDS];
            bytes[25] = byte;
            Record::First(First {
                bytes,
                second_table,
                position,
            })
        };
        let of_the_second_edition = Record::Second([0xEE; CTB2_BYTES]);
        for other in [
            first(238, None, 0),
            first(238, Some(0xEE), 0xEE),
            first(0, None, 0xEE),
            of_the_second_edition,
        ] {
            let mut lent = [LENT_RECORD; 3];
            assert_eq!(kept(&lent, LENT_RECORD), "kept");
            lent[2] = other;
            assert_eq!(kept(&lent, LENT_RECORD), "changed");
        }
    }
}
