//! A refusal with its words and its place; that of the file or of its body also with the bytes there.

use crate::refusal::Refusal;
use crate::report::dump;
use crate::report::json::Json;
use crate::report::told::Told;
use crate::report::{Members, Read};

/// Where a refusal stands in the file, be it of the file or of its body.
pub fn refused(read: &Read) -> Option<(u8, usize)> {
    let (refusal, start) = match read {
        Ok(body) => (body.refused.as_ref()?.0, body.found.body_place()),
        Err((refusal, _)) => (*refusal, 0),
    };
    Some((refusal.number, start + refusal.place))
}

/// The refusal of the file or of its body, with the bytes at its place.
pub fn of_file(file: &[u8], read: &Read) -> Json {
    let (refusal, told, place, end) = match read {
        Err((refusal, told)) => {
            let place = vec![("file", Json::Number(refusal.place)), ("body", Json::Null)];
            (refusal, told, place, file.len())
        }
        Ok(body) => match &body.refused {
            None => return Json::Null,
            Some((refusal, told)) => {
                let start = body.found.body_place();
                let end = start + body.found.body_length;
                (refusal, told, in_body(start, refusal.place), end)
            }
        },
    };
    let at = refused(read).map_or(0, |(_, place)| place);
    let mut members = members(refusal, told, place);
    members.push(("dump", dump::at_place(file, at, end)));
    Json::Object(members)
}

pub fn members(refusal: &Refusal, told: &Told, place: Members) -> Members {
    let detail = told.detail.clone().map(Json::Text);
    vec![
        ("number", Json::Number(refusal.number.into())),
        ("reason", Json::text(told.reason.sentence())),
        ("detail", Json::maybe(detail)),
        ("place", Json::Object(place)),
    ]
}

/// A place of a body, counted from the file's start and from its own.
pub fn in_body(start: usize, place: usize) -> Members {
    vec![
        ("file", Json::Number(start + place)),
        ("body", Json::Number(place)),
    ]
}
