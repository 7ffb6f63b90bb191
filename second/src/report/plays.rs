//! Who plays of a part under a chord, in Ctab order.

use crate::body::{number_of_part, read_body};
use crate::plays::plays;
use crate::report::channel::who;
use crate::report::chord::chord;
use crate::report::json::Json;
use crate::report::names::name;
use crate::report::words::{word, ROOTS, TYPES};
use crate::style::find;

/// The answer, or what is wrong with the question; it "needs a body that reads strictly".
pub fn who_plays(asked: &[u8], file: &[u8], part: &[u8], text: &[u8]) -> Result<Json, String> {
    let found = find(file).map_err(|refusal| format!("refused {}", refusal.number))?;
    let groups =
        read_body(found.body(file)).map_err(|refusal| format!("refused {}", refusal.number))?;
    let number = number_of_part(&groups, part).map_err(|_| "no such part".to_string())?;
    let (root, chord_type) = chord(text).ok_or("no such chord")?;
    let records = groups[number].records.iter().map(|placed| &placed.record);
    let playing = records
        .clone()
        .filter(|record| plays(record, root, chord_type));
    Ok(Json::Object(vec![
        ("file", Json::Text(name(asked))),
        ("part", Json::Text(name(part))),
        ("root", Json::text(word(&ROOTS, root))),
        ("type", Json::text(word(&TYPES, chord_type))),
        ("channels", Json::Number(records.count())),
        (
            "plays",
            Json::list(playing, |record| Json::Object(who(record))),
        ),
    ]))
}
