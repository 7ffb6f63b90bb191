//! A page of the tool for people: well-formed as XML behind its `<!DOCTYPE html>` line, no script
//! and nothing that is fetched from elsewhere.

pub mod outside;
pub mod tag;
pub mod text;

use tag::{Form, Tag};

const DOCTYPE: &str = "<!DOCTYPE html>\n";
const COMMENT: (&str, &str) = ("<!--", "-->");

/// What is wrong with a page, and at which byte.
#[derive(Clone, Debug, PartialEq, Eq)]
pub struct Fault {
    pub place: usize,
    pub what: String,
}

pub type Judged<T> = Result<T, Fault>;

pub fn fault<T>(place: usize, what: impl Into<String>) -> Judged<T> {
    let what = what.into();
    Err(Fault { place, what })
}

/// Accepts a page, or says what is wrong and where.
pub fn check(page: &[u8]) -> Result<(), String> {
    judge(page).map_err(|fault| {
        let before = &page[..fault.place.min(page.len())];
        let line = before.iter().filter(|&&byte| byte == b'\n').count() + 1;
        format!("line {line}, byte {}: {}", fault.place, fault.what)
    })
}

fn judge(page: &[u8]) -> Judged<()> {
    let page = match std::str::from_utf8(page) {
        Ok(page) => page,
        Err(error) => return fault(error.valid_up_to(), "not UTF-8"),
    };
    text::no_control(page)?;
    if !page.starts_with(DOCTYPE) {
        return fault(0, "the first line is not <!DOCTYPE html>");
    }
    let mut open: Vec<Tag> = Vec::new();
    let mut roots = 0;
    let mut at = DOCTYPE.len();
    while at < page.len() {
        if page[at..].starts_with(COMMENT.0) {
            at = comment(page, at)?;
        } else if page[at..].starts_with('<') {
            let tag = tag::read(page, at)?;
            at = tag.end;
            roots += usize::from(open.is_empty());
            nest(&mut open, tag)?;
        } else {
            let end = page[at..].find('<').map_or(page.len(), |next| at + next);
            content(page, at, end, open.last())?;
            at = end;
        }
    }
    match open.last() {
        Some(tag) => fault(tag.place, format!("<{}> is not closed", tag.name)),
        None if roots == 1 => Ok(()),
        None => fault(at, format!("{roots} elements stand at the top, not one")),
    }
}

/// Opens an element, or closes the last one that is open.
fn nest<'a>(open: &mut Vec<Tag<'a>>, tag: Tag<'a>) -> Judged<()> {
    match tag.form {
        Form::Whole => Ok(()),
        Form::Open => {
            open.push(tag);
            Ok(())
        }
        Form::Close => match open.pop() {
            Some(last) if last.name == tag.name => Ok(()),
            Some(last) => {
                let (name, line) = (tag.name, last.name);
                fault(tag.place, format!("</{name}> where <{line}> is open"))
            }
            None => fault(tag.place, format!("</{}> closes nothing", tag.name)),
        },
    }
}

/// Text between two tags.
fn content(page: &str, start: usize, end: usize, within: Option<&Tag>) -> Judged<()> {
    let words = &page[start..end];
    text::escaped(words, start)?;
    if let Some(place) = words.find("]]>") {
        return fault(start + place, "]]> in text");
    }
    match within {
        None if words.trim().is_empty() => Ok(()),
        None => fault(start, "text outside of all elements"),
        Some(tag) if tag.name == "style" => outside::style(words, start),
        Some(_) => Ok(()),
    }
}

/// Where a comment ends.
fn comment(page: &str, start: usize) -> Judged<usize> {
    let inside = start + COMMENT.0.len();
    match page[inside..].find("--") {
        Some(place) if page[inside + place..].starts_with(COMMENT.1) => {
            Ok(inside + place + COMMENT.1.len())
        }
        Some(place) => fault(inside + place, "-- in a comment"),
        None => fault(start, "a comment is not closed"),
    }
}
