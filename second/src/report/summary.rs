//! Many files: a line each, then how many there are of each verdict.

use crate::report::json::Json;
use crate::report::names::name;
use crate::report::reading::read;
use crate::report::refusal::refused;
use crate::report::{editions, verdict};

/// The verdicts in the order in which they are counted.
pub const VERDICTS: [&str; 5] = [
    "sound",
    "damaged",
    "no CASM",
    "not a style file",
    "not read",
];

pub const NOT_READ: &str = "not read";

/// The verdict of a file and its line; a file that was not read has no bytes.
pub fn line(asked: &[u8], file: Option<&[u8]>) -> (&'static str, Json) {
    let read = file.map(read);
    let body = read.as_ref().and_then(|read| read.as_ref().ok());
    let verdict = read.as_ref().map_or(NOT_READ, verdict);
    let refusal = read.as_ref().and_then(refused).map(|(number, place)| {
        Json::Object(vec![
            ("number", Json::Number(number.into())),
            ("place", Json::Number(place)),
        ])
    });
    let groups = body.map_or(0, |body| body.groups().count());
    let line = Json::Object(vec![
        ("file", Json::Text(name(asked))),
        ("verdict", Json::text(verdict)),
        ("groups", Json::Number(groups)),
        ("editions", editions(body)),
        ("refusal", Json::maybe(refusal)),
    ]);
    (verdict, line)
}

/// "`check`: 2 if a file was not read, else 1 if one is not sound, else 0".
pub fn exit_status(verdicts: &[&str]) -> u8 {
    let not_read = verdicts.contains(&NOT_READ);
    let all_sound = verdicts.iter().all(|&verdict| verdict == VERDICTS[0]);
    match (not_read, all_sound) {
        (true, _) => 2,
        (false, false) => 1,
        (false, true) => 0,
    }
}

/// The last line.
pub fn totals(verdicts: &[&str]) -> Json {
    let of = |wanted: &str| {
        let found = verdicts.iter().filter(|&&verdict| verdict == wanted);
        Json::Number(found.count())
    };
    let mut members = vec![("files", Json::Number(verdicts.len()))];
    members.extend(VERDICTS.map(|verdict| (verdict, of(verdict))));
    Json::Object(members)
}
