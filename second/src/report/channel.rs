//! A channel record in words.

use crate::bytes::number;
use crate::edition::Edition;
use crate::ranges::{
    HIGHEST_MIDDLE, HIGH_KEY, HIGH_LIMIT, LOWEST_MIDDLE, LOW_LIMIT, LOW_SET, ONLY_SET, RULE,
    SET_BYTES, TABLE, TAIL,
};
use crate::record::{is_locked, Record};
use crate::report::json::Json;
use crate::report::names::{hex, name, notes};
use crate::report::words::{
    choice, table, table_of, word, DESTINATIONS, RETRIGGERS, ROOTS, RULES, SETS, TYPES,
};

const RETRIGGER: usize = 5;
const AUTO_START: usize = 34;
const LAST_NOTE: i32 = 127;

/// All facts of a record; its place is given as it is shown.
pub fn channel(record: &Record, place: Json) -> Json {
    let types = held(record.chord_mask(), &TYPES);
    let roots = held(record.root_mask(), &ROOTS);
    let auto_start = number(record.chord_mask()) >> AUTO_START & 1 == 1;
    let mut members = who(record);
    members.insert(2, ("voice_bytes", Json::Text(hex(&record[1..9]))));
    members.extend([
        ("locked", Json::Bool(is_locked(record.bytes()))),
        ("chord_types", Json::words(&types)),
        ("chord_types_text", Json::Text(choice(&types, &TYPES))),
        ("auto_start", Json::Bool(auto_start)),
        ("roots", Json::words(&roots)),
        ("roots_text", Json::Text(choice(&roots, &ROOTS))),
        ("source_root", Json::text(word(&ROOTS, record[18]))),
        ("source_chord", Json::text(word(&TYPES, record[19]))),
        ("middle_notes", middle_notes(record)),
        ("sets", sets(record)),
        ("unexplained", unexplained(record)),
        ("place", place),
        ("length", Json::Number(record.edition().size())),
    ]);
    Json::Object(members)
}

/// Channel, voice and destination: "Channels are 1-16 (byte + 1)".
pub fn who(record: &Record) -> Vec<(&'static str, Json)> {
    let destination = record[9];
    let one_based = |byte: u8| Json::Number(usize::from(byte) + 1);
    vec![
        ("channel", one_based(record.source_channel())),
        ("voice", Json::Text(name(voice(record)))),
        ("destination", one_based(destination)),
        (
            "destination_name",
            Json::text(word(&DESTINATIONS, destination - 8)),
        ),
    ]
}

/// The voice name "with trailing 20H bytes left off".
fn voice(record: &Record) -> &[u8] {
    let bytes = &record[1..9];
    let end = bytes.iter().rposition(|&byte| byte != 0x20);
    &bytes[..end.map_or(0, |last| last + 1)]
}

/// The words whose bits are set, from bit 0 on.
fn held<'a>(mask: &[u8], every: &[&'a str]) -> Vec<&'a str> {
    let mask = number(mask);
    let set = |bit: &usize| mask >> bit & 1 == 1;
    let bits = (0..every.len()).filter(set);
    bits.map(|bit| every[bit]).collect()
}

fn middle_notes(record: &Record) -> Json {
    if record.edition() == Edition::First {
        return Json::Null;
    }
    let (low, high) = (record[LOWEST_MIDDLE], record[HIGHEST_MIDDLE]);
    Json::Object(vec![
        ("low", Json::Number(low.into())),
        ("high", Json::Number(high.into())),
        ("text", Json::Text(notes(low, high))),
    ])
}

fn unexplained(record: &Record) -> Json {
    match record.edition() {
        Edition::First => Json::Null,
        Edition::Second => Json::Text(hex(&record[TAIL..])),
    }
}

/// The one set of a Ctab, or the three of a Ctb2.
fn sets(record: &Record) -> Json {
    if record.edition() == Edition::First {
        return Json::List(vec![set(record, "all", ONLY_SET, 0..=LAST_NOTE)]);
    }
    let low = i32::from(record[LOWEST_MIDDLE]);
    let high = i32::from(record[HIGHEST_MIDDLE]);
    let reached = [0..=low - 1, low..=high, low.max(high + 1)..=LAST_NOTE];
    Json::list(reached.into_iter().enumerate(), |(number, notes)| {
        set(record, SETS[number], LOW_SET + SET_BYTES * number, notes)
    })
}

/// A set by where its six bytes begin, and the source notes that reach it.
fn set(record: &Record, label: &str, start: usize, source: std::ops::RangeInclusive<i32>) -> Json {
    let bytes = &record[start..start + SET_BYTES];
    let (low, high) = (bytes[LOW_LIMIT], bytes[HIGH_LIMIT]);
    let second = record
        .second_table()
        .map(|value| Json::Text(table(0, value)));
    let table = table_of(record.edition(), bytes[RULE], bytes[TABLE]);
    Json::Object(vec![
        ("set", Json::text(label)),
        ("source_notes", source_notes(source)),
        ("rule", Json::text(word(&RULES, bytes[RULE]))),
        ("table", Json::Text(table)),
        ("second_table", Json::maybe(second)),
        ("high_key", Json::text(word(&ROOTS, bytes[HIGH_KEY]))),
        ("low_limit", Json::Number(low.into())),
        ("high_limit", Json::Number(high.into())),
        ("limits", Json::Text(notes(low, high))),
        ("retrigger", Json::text(word(&RETRIGGERS, bytes[RETRIGGER]))),
    ])
}

fn source_notes(source: std::ops::RangeInclusive<i32>) -> Json {
    if source.is_empty() {
        return Json::Null;
    }
    Json::Object(vec![
        ("low", Json::Number(*source.start() as usize)),
        ("high", Json::Number(*source.end() as usize)),
    ])
}
