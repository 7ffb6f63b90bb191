//! Spelling script lines: BYTES with long runs as `*` parts, records, and whole lines.

use crate::gen::dice::Dice;
use crate::record::Record;
use crate::script::{push_hex, show_record};

pub use crate::script::show_record as rec;

/// A line of a script, without its newline.
pub type Line = Vec<u8>;

/// Runs of one byte this long are spelled with `*`.
const LONG_RUN: usize = 24;

/// BYTES, plain but for long runs of one byte.
pub fn spell(bytes: &[u8]) -> String {
    if bytes.is_empty() {
        return "-".to_string();
    }
    let mut text = String::with_capacity(2 * bytes.len());
    let mut plain = 0;
    let mut place = 0;
    while place < bytes.len() {
        let run = run_length(&bytes[place..]);
        if run >= LONG_RUN {
            push_part(&mut text, &bytes[plain..place], 1);
            push_part(&mut text, &bytes[place..place + 1], run);
            plain = place + run;
        }
        place += run;
    }
    push_part(&mut text, &bytes[plain..], 1);
    text
}

/// How often the first byte stands at the start.
fn run_length(bytes: &[u8]) -> usize {
    bytes.iter().take_while(|&&byte| byte == bytes[0]).count()
}

/// Adds one part, joined by `+`; nothing for no bytes.
fn push_part(text: &mut String, bytes: &[u8], count: usize) {
    if bytes.is_empty() {
        return;
    }
    if !text.is_empty() {
        text.push('+');
    }
    push_hex(text, bytes);
    if count != 1 {
        text.push_str(&format!("*{count}"));
    }
}

/// BYTES from parts that are repeated so often.
pub fn spell_parts(parts: &[(&[u8], usize)]) -> String {
    let mut text = String::new();
    for &(bytes, count) in parts {
        push_part(&mut text, bytes, count);
    }
    text
}

/// BYTES in some other spelling of the same bytes: cut into parts, counts of 1 and 0.
pub fn spell_oddly(dice: &mut Dice, bytes: &[u8]) -> String {
    if bytes.is_empty() {
        return dice
            .pick(&["-", "00*0", "ff*00", "4353*0+00*0"])
            .to_string();
    }
    let mut text = String::new();
    let mut place = 0;
    while place < bytes.len() {
        let end = place + dice.between(1, bytes.len() - place);
        if dice.percent(20) {
            push_part(&mut text, &[dice.byte()], 0);
        }
        push_part(&mut text, &bytes[place..end], 1);
        if dice.percent(30) {
            text.push_str(dice.pick(&["*1", "*01", "*0000000000001"]));
        }
        place = end;
    }
    text
}

/// A line `VERB BYTES`, with further tokens after.
pub fn body_line(verb: &str, body: &[u8], tokens: &str) -> Line {
    let mut text = format!("{verb} {}", spell(body));
    if !tokens.is_empty() {
        text.push(' ');
        text.push_str(tokens);
    }
    text.into_bytes()
}

/// A `write` line.
pub fn write_line(names: &[u8], count: u64, room: usize, records: &[Record]) -> Line {
    let mut text = format!("write {} {count} {room}", spell(names));
    for record in records {
        text.push(' ');
        text.push_str(&show_record(record));
    }
    text.into_bytes()
}
