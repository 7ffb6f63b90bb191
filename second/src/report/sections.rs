//! The sections of a file one by one, as far as they can be followed.

use crate::bytes::{four, Tag, HEADER, MTHD, MTRK};
use crate::report::json::Json;
use crate::report::names::name;
use crate::section::section;
use crate::style::find;
use std::collections::HashSet;

/// Tag, place and length of each section before the one that is refused, MThd and MTrk first.
pub fn sections(file: &[u8]) -> Json {
    let not_a_style = find(file).is_err_and(|refusal| refusal.number == 1);
    let followed = if not_a_style { Vec::new() } else { walk(file) };
    Json::list(followed, |(tag, place, length)| {
        Json::Object(vec![
            ("tag", Json::Text(name(&tag))),
            ("place", Json::Number(place)),
            ("length", Json::Number(length)),
        ])
    })
}

/// The sections of a style file up to its end, or up to one that is cut or has a tag seen before;
/// "the leading MThd and MTrk not counted".
fn walk(file: &[u8]) -> Vec<(Tag, usize, usize)> {
    let mut seen: HashSet<Tag> = HashSet::new();
    let mut list = Vec::new();
    let mut place = 0;
    while place < file.len() {
        let Ok(length) = section(file, place as u32) else {
            break;
        };
        let tag = four(file, place);
        let leading = [MTHD, MTRK].get(list.len()) == Some(&tag);
        if !leading && !seen.insert(tag) {
            break;
        }
        list.push((tag, place, length));
        place += HEADER + length;
    }
    list
}
