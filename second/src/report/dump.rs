//! Rows of 16 bytes: "the first three, and the refused byte's with one before and after"; of loose
//! bytes the first four.

use crate::report::json::Json;
use crate::report::names::hex;

const ROW: usize = 16;
const FIRST_ROWS: usize = 3;
const LOOSE_ROWS: usize = 4;

/// Rows of the refusal of a file: at most so many bytes from its place on.
const AT_PLACE: usize = 32;

/// The rows of an entry, or some of them; places count from the file's start.
pub fn rows(file: &[u8], start: usize, length: usize, marked: Option<usize>) -> Json {
    let shown = |row: &usize| match marked {
        None => *row < LOOSE_ROWS,
        Some(mark) => {
            let marked_row = (mark - start) / ROW;
            *row < FIRST_ROWS || row.abs_diff(marked_row) <= 1
        }
    };
    let kept = (0..length.div_ceil(ROW)).filter(shown);
    Json::list(kept, |number| {
        let place = start + ROW * number;
        let end = (place + ROW).min(start + length);
        let mark = marked.and_then(|mark| mark.checked_sub(place));
        row(&file[place..end], place, mark.filter(|&mark| mark < ROW))
    })
}

fn row(bytes: &[u8], place: usize, mark: Option<usize>) -> Json {
    Json::Object(vec![
        ("place", Json::Number(place)),
        ("bytes", Json::Text(hex(bytes))),
        ("marked", Json::maybe(mark.map(Json::Number))),
    ])
}

/// The bytes from a refused place on, up to an end; none where the place is that end.
pub fn at_place(file: &[u8], place: usize, end: usize) -> Json {
    rows(file, place, AT_PLACE.min(end - place), Some(place))
}
