//! What would run or be fetched from elsewhere: scripts, sources, links that leave the page, and in
//! its styles imports and addresses. Words of a name in text or in a label are none of these.

use crate::page::{fault, Judged};

/// Elements that a page does not have.
const ELEMENTS: [&str; 7] = [
    "script", "link", "iframe", "object", "embed", "base", "form",
];

/// Attributes by which something is fetched, sent or run, by how they begin.
const ATTRIBUTES: [&str; 7] = [
    "src",
    "on",
    "data-src",
    "http-equiv",
    "action",
    "poster",
    "background",
];

/// Attributes that must point into the page.
const LINKS: [&str; 2] = ["href", "xlink:href"];

/// Attributes whose values name a place elsewhere.
const ADDRESSES: [&str; 2] = ["http:", "https:"];

pub fn element(name: &str, place: usize) -> Judged<()> {
    match ELEMENTS.contains(&name.to_ascii_lowercase().as_str()) {
        true => fault(place, format!("<{name}> in a page")),
        false => Ok(()),
    }
}

pub fn attribute(name: &str, value: &str, place: usize) -> Judged<()> {
    let lower = name.to_ascii_lowercase();
    if ATTRIBUTES.iter().any(|start| lower.starts_with(start)) {
        return fault(place, format!("the attribute {name} in a page"));
    }
    if LINKS.contains(&lower.as_str()) && !value.starts_with('#') {
        return fault(place, format!("{name} leaves the page"));
    }
    if lower.starts_with("xmlns") {
        return fault(place, format!("{name} names an address"));
    }
    match STYLED.contains(&lower.as_str()) {
        true => style(value, place),
        false => Ok(()),
    }
}

/// Attributes whose values are read as styles are.
const STYLED: [&str; 8] = [
    "style",
    "fill",
    "stroke",
    "filter",
    "mask",
    "clip-path",
    "marker-end",
    "marker-start",
];

/// Styles: no import, no address, and `url(` only for a part of the page.
pub fn style(words: &str, start: usize) -> Judged<()> {
    let lower = words.to_ascii_lowercase();
    for word in ADDRESSES.into_iter().chain(["@import", "src="]) {
        if let Some(place) = lower.find(word) {
            return fault(start + place, format!("{word} in a style"));
        }
    }
    for (place, url) in lower.match_indices("url(") {
        if !lower[place + url.len()..].starts_with('#') {
            return fault(start + place, "url( that leaves the page");
        }
    }
    Ok(())
}
