//! Characters of text and of attribute values.

use crate::page::{fault, Judged};

/// The entities that have a name.
const NAMED: [&str; 4] = ["&amp;", "&lt;", "&gt;", "&quot;"];

/// Control characters that XML has a use for.
const SPACES: [char; 3] = ['\t', '\n', '\r'];

pub fn no_control(page: &str) -> Judged<()> {
    let control = |one: char| u32::from(one) < 0x20 && !SPACES.contains(&one);
    match page.find(control) {
        Some(place) => fault(place, "a control character"),
        None => Ok(()),
    }
}

/// Whether `<` and `&` stand only where they are escaped; the place of the words is told.
pub fn escaped(words: &str, start: usize) -> Judged<()> {
    if let Some(place) = words.find('<') {
        return fault(start + place, "< in text or a value");
    }
    for (place, _) in words.match_indices('&') {
        let rest = &words[place..];
        if !NAMED.iter().any(|entity| rest.starts_with(entity)) && !numbered(rest) {
            return fault(start + place, "& that begins no entity of a page");
        }
    }
    Ok(())
}

/// An entity `&#xNN;` of a character that may stand in XML.
fn numbered(words: &str) -> bool {
    let digits = words.strip_prefix("&#x").and_then(|rest| rest.get(..3));
    let Some(hex) = digits.and_then(|digits| digits.strip_suffix(';')) else {
        return false;
    };
    let plain = hex.bytes().all(|byte| byte.is_ascii_hexdigit());
    let value = u32::from_str_radix(hex, 16).ok();
    let one = value.filter(|_| plain).and_then(char::from_u32);
    one.is_some_and(|one| u32::from(one) >= 0x20 || SPACES.contains(&one))
}
