//! A tag: its name, whether it opens, closes or both, and its attributes, each with a value in
//! quotes and none twice.

use crate::page::{fault, outside, text, Judged};

#[derive(Clone, Copy, Debug, PartialEq, Eq)]
pub enum Form {
    Open,
    Close,
    Whole,
}

/// A tag at its place, and where it ends.
#[derive(Clone, Debug, PartialEq, Eq)]
pub struct Tag<'a> {
    pub place: usize,
    pub name: &'a str,
    pub form: Form,
    pub end: usize,
}

/// An attribute, where its value begins and where the next thing does.
struct Attribute<'a> {
    name: &'a str,
    value: &'a str,
    value_place: usize,
    end: usize,
}

/// Reads the tag that begins at a place.
pub fn read(page: &str, place: usize) -> Judged<Tag<'_>> {
    let closes = page[place..].starts_with("</");
    let name_place = place + if closes { 2 } else { 1 };
    let name = name(page, name_place);
    if name.is_empty() {
        return fault(place, "< that begins no tag");
    }
    outside::element(name, place)?;
    let mut at = name_place + name.len();
    let mut seen: Vec<&str> = Vec::new();
    loop {
        let next = at + spaces(&page[at..]);
        let rest = &page[next..];
        let ends = [(">", Form::Open), ("/>", Form::Whole)];
        if let Some((mark, form)) = ends.into_iter().find(|(mark, _)| rest.starts_with(mark)) {
            let form = match (closes, form) {
                (true, Form::Open) if seen.is_empty() => Form::Close,
                (true, _) => return fault(place, "a closing tag holds more than its name"),
                (false, form) => form,
            };
            let end = next + mark.len();
            return Ok(Tag {
                place,
                name,
                form,
                end,
            });
        }
        if next == at {
            return fault(next, format!("the tag <{name}> does not end here"));
        }
        let attribute = attribute(page, next)?;
        if seen.contains(&attribute.name) {
            return fault(next, format!("{} stands twice in a tag", attribute.name));
        }
        seen.push(attribute.name);
        at = attribute.end;
    }
}

/// The attribute at a place; its value is text without `<`.
fn attribute(page: &str, place: usize) -> Judged<Attribute<'_>> {
    let name = name(page, place);
    if name.is_empty() {
        return fault(place, "neither an attribute nor the end of a tag");
    }
    let mark = place + name.len();
    let sign = mark + spaces(&page[mark..]);
    let after = &page[sign..];
    let quote_place = match after.starts_with('=') {
        true => sign + 1 + spaces(&after[1..]),
        false => return fault(mark, format!("{name} has no value")),
    };
    let quote = match page[quote_place..].chars().next() {
        Some(quote @ ('"' | '\'')) => quote,
        _ => return fault(mark, format!("{name} has no value in quotes")),
    };
    let value_place = quote_place + 1;
    let Some(length) = page[value_place..].find(quote) else {
        return fault(quote_place, format!("the quote of {name} is not closed"));
    };
    let found = Attribute {
        name,
        value: &page[value_place..value_place + length],
        value_place,
        end: value_place + length + 1,
    };
    text::escaped(found.value, found.value_place)?;
    outside::attribute(found.name, found.value, place)?;
    Ok(found)
}

/// The name at a place, or nothing.
fn name(page: &str, place: usize) -> &str {
    let rest = &page[place..];
    let first = |one: char| one.is_ascii_alphabetic() || one == '_';
    let later = |one: char| first(one) || one.is_ascii_digit() || "-.:".contains(one);
    if !rest.starts_with(first) {
        return "";
    }
    let end = rest.find(|one| !later(one)).unwrap_or(rest.len());
    &rest[..end]
}

fn spaces(rest: &str) -> usize {
    let space = |one: char| !matches!(one, ' ' | '\t' | '\n' | '\r');
    rest.find(space).unwrap_or(rest.len())
}
