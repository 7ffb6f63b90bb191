//! Values as JSON on one line, nothing between them, every character outside 20H-7EH escaped.

use std::fmt::{Display, Formatter, Result, Write};

#[derive(Clone, Debug, PartialEq, Eq)]
pub enum Json {
    Null,
    Bool(bool),
    Number(usize),
    Text(String),
    List(Vec<Json>),
    Object(Vec<(&'static str, Json)>),
}

impl Json {
    pub fn text(text: impl Into<String>) -> Json {
        Json::Text(text.into())
    }

    /// The value, or null where there is none.
    pub fn maybe(value: Option<Json>) -> Json {
        value.unwrap_or(Json::Null)
    }

    pub fn list<T>(of: impl IntoIterator<Item = T>, each: impl FnMut(T) -> Json) -> Json {
        Json::List(of.into_iter().map(each).collect())
    }

    /// A list of words.
    pub fn words(words: &[&str]) -> Json {
        Json::list(words, |&word| Json::text(word))
    }
}

impl Display for Json {
    fn fmt(&self, out: &mut Formatter) -> Result {
        match self {
            Json::Null => out.write_str("null"),
            Json::Bool(value) => write!(out, "{value}"),
            Json::Number(value) => write!(out, "{value}"),
            Json::Text(text) => quoted(out, text),
            Json::List(values) => {
                out.write_char('[')?;
                for (number, value) in values.iter().enumerate() {
                    out.write_str(if number > 0 { "," } else { "" })?;
                    value.fmt(out)?;
                }
                out.write_char(']')
            }
            Json::Object(members) => {
                out.write_char('{')?;
                for (number, (key, value)) in members.iter().enumerate() {
                    out.write_str(if number > 0 { "," } else { "" })?;
                    quoted(out, key)?;
                    write!(out, ":{value}")?;
                }
                out.write_char('}')
            }
        }
    }
}

fn quoted(out: &mut Formatter, text: &str) -> Result {
    out.write_char('"')?;
    for unit in text.encode_utf16() {
        match u8::try_from(unit) {
            Ok(byte @ (b'"' | b'\\')) => write!(out, "\\{}", char::from(byte))?,
            Ok(byte @ 0x20..=0x7E) => out.write_char(char::from(byte))?,
            _ => write!(out, "\\u{unit:04x}")?,
        }
    }
    out.write_char('"')
}
