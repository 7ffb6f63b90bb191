//! An entry of a body: a group with its channels, or a refusal with some of its bytes.

use crate::group::Group;
use crate::report::channel::channel;
use crate::report::dump;
use crate::report::edition_number;
use crate::report::json::Json;
use crate::report::names::name;
use crate::report::reading::{Kind, Shown};
use crate::report::refusal::{in_body, members as refusal_members};
use crate::report::Members;
use crate::sdec;

/// An entry of a body that begins at this place of the file.
pub fn entry(file: &[u8], start: usize, shown: &Shown) -> Json {
    let (kind, marked) = match &shown.kind {
        Kind::Sound(_) => ("sound", None),
        Kind::Damaged(refusal, _) => ("damaged", Some(start + shown.place + refusal.place)),
        Kind::Loose(..) => ("loose", None),
    };
    let mut members = vec![
        ("kind", Json::text(kind)),
        ("place", Json::Object(in_body(start, shown.place))),
        ("length", Json::Number(shown.length)),
    ];
    match &shown.kind {
        Kind::Sound(group) => members.extend(group_members(start, shown, group)),
        Kind::Damaged(refusal, told) | Kind::Loose(refusal, told) => {
            let mut place = in_body(start, shown.place + refusal.place);
            place.push(("entry", Json::Number(refusal.place)));
            let refusal = refusal_members(refusal, told, place);
            let rows = dump::rows(file, start + shown.place, shown.length, marked);
            members.extend([("refusal", Json::Object(refusal)), ("dump", rows)]);
        }
    }
    Json::Object(members)
}

/// Edition, parts and channels of a group; an edition of 0 is that of a group without channels.
fn group_members(start: usize, shown: &Shown, group: &Group) -> Members {
    let edition = group.edition().map_or(0, edition_number);
    let parts = Json::list(sdec::names(group.text), |part| Json::Text(name(part)));
    let channels = Json::list(&group.records, |placed| {
        let place = shown.place + placed.place - group.place;
        channel(&placed.record, Json::Object(in_body(start, place)))
    });
    vec![
        ("edition", Json::Number(edition)),
        ("parts", parts),
        ("channels", channels),
    ]
}
