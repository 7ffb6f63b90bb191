//! The facts of a style file, as the tool for people prints them in JSON: one file whole, many in a
//! line each, and who plays of one part.

pub mod channel;
pub mod chord;
pub mod dump;
pub mod entry;
pub mod input;
pub mod json;
pub mod names;
pub mod plays;
pub mod range;
pub mod reading;
pub mod reason;
pub mod refusal;
pub mod sections;
pub mod summary;
pub mod told;
pub mod words;

use crate::edition::Edition;
use crate::refusal::Refusal;
use entry::entry;
use json::Json;
use reading::{Body, Kind};
use told::Told;

type Members = Vec<(&'static str, Json)>;
type Read<'a> = Result<Body<'a>, (Refusal, Told)>;

/// The facts of a file under the name that it was asked by.
pub fn facts(name: &[u8], file: &[u8]) -> Json {
    let read = reading::read(file);
    let body = read.as_ref().ok();
    let entries = Json::list(body.iter().flat_map(|body| &body.entries), |shown| {
        entry(file, body.map_or(0, |body| body.found.body_place()), shown)
    });
    Json::Object(vec![
        ("file", Json::Text(names::name(name))),
        ("size", Json::Number(file.len())),
        ("verdict", Json::text(verdict(&read))),
        ("editions", editions(body)),
        ("refusal", refusal::of_file(file, &read)),
        ("counts", Json::maybe(body.map(counts))),
        ("sections", sections::sections(file)),
        ("casm", Json::maybe(body.map(casm))),
        ("entries", entries),
    ])
}

pub fn verdict(read: &Read) -> &'static str {
    match read {
        Ok(body) if body.refused.is_none() => "sound",
        Err((refusal, _)) if refusal.number == 1 => "not a style file",
        Err((refusal, _)) if refusal.number == 5 => "no CASM",
        _ => "damaged",
    }
}

pub fn editions(body: Option<&Body>) -> Json {
    let found = body.map(Body::editions).unwrap_or_default();
    Json::list(found, |edition| Json::Number(edition_number(edition)))
}

fn edition_number(edition: Edition) -> usize {
    match edition {
        Edition::First => 1,
        Edition::Second => 2,
    }
}

fn counts(body: &Body) -> Json {
    let of = |is: fn(&Kind) -> bool| {
        let found = body.entries.iter().filter(|shown| is(&shown.kind));
        Json::Number(found.count())
    };
    Json::Object(vec![
        ("entries", Json::Number(body.entries.len())),
        ("sound", of(|kind| matches!(kind, Kind::Sound(_)))),
        ("damaged", of(|kind| matches!(kind, Kind::Damaged(..)))),
        ("loose", of(|kind| matches!(kind, Kind::Loose(..)))),
        ("parts", Json::Number(body.parts())),
        ("channels", Json::Number(body.channels())),
    ])
}

fn casm(body: &Body) -> Json {
    Json::Object(vec![
        ("place", Json::Number(body.found.tag_place)),
        ("body", Json::Number(body.found.body_place())),
        ("length", Json::Number(body.found.body_length)),
    ])
}
