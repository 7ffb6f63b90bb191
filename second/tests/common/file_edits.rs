//! The lines of `editfile` with their answers, and what of their file they ask for.

use super::answered::answered;
use super::chunks;
use second::body::read_body;
use second::record::Record;
use second::refusal::Refusal;
use second::script::{byte, bytes, overriding, record};
use second::style::find;

/// A record where it stands: the place of its byte 0 in the file, and its 27 or 47 bytes.
#[derive(Clone)]
pub struct Standing {
    pub place: usize,
    pub bytes: Vec<u8>,
}

/// The names of a group and its records.
pub struct Group {
    pub names: Vec<Vec<u8>>,
    pub records: Vec<Standing>,
}

pub struct FileEdit {
    pub file: Vec<u8>,
    pub part: Vec<u8>,
    pub channel: u8,
    pub over: bool,
    pub new: Record,
    /// The refusal of the finding; where the body begins, and its own refusal; its groups where it
    /// has none.
    pub not_found: Option<Refusal>,
    pub start: usize,
    pub unread: Option<Refusal>,
    pub groups: Vec<Group>,
    /// The answer without the file, and the file after it.
    pub told: String,
    pub after: Vec<u8>,
}

impl FileEdit {
    pub fn is_ok(&self) -> bool {
        self.told == "ok"
    }

    /// The number of the group that has the part.
    pub fn group(&self) -> Option<usize> {
        let has_part = |group: &Group| group.names.contains(&self.part);
        self.groups.iter().position(has_part)
    }

    /// The number of the record of the channel in that group, and the record.
    pub fn standing(&self) -> Option<(usize, &Standing)> {
        let records = &self.groups[self.group()?].records;
        let number = records.iter().position(|of| of.bytes[0] == self.channel)?;
        Some((number, &records[number]))
    }
}

/// The groups of a body that can be read and begins at a place of its file.
fn groups_of(body: &[u8], start: usize) -> Vec<Group> {
    let group = |children: &[chunks::Chunk]| Group {
        names: chunks::names(children)
            .iter()
            .map(|of| of.to_vec())
            .collect(),
        records: chunks::records(children)
            .iter()
            .map(|chunk| Standing {
                place: start + chunk.place + 8,
                bytes: chunk.payload.to_vec(),
            })
            .collect(),
    };
    let all = chunks::groups(body);
    all.iter().map(|(_, children)| group(children)).collect()
}

fn file_edit(parts: &[Vec<u8>], words: &[String]) -> FileEdit {
    let file = bytes(&parts[1]).unwrap();
    let found = find(&file);
    let (start, body) = match &found {
        Ok(found) => (found.body_place(), found.body(&file)),
        Err(_) => (0, &[][..]),
    };
    let unread = read_body(body).err();
    let groups = match unread {
        Some(_) => Vec::new(),
        None => groups_of(body, start),
    };
    let (after, told) = words.split_last().unwrap();
    FileEdit {
        part: bytes(&parts[2]).unwrap(),
        channel: byte(&parts[3]).unwrap(),
        over: overriding(&parts[4]).unwrap(),
        new: record(&parts[5]).unwrap(),
        not_found: found.err(),
        start,
        unread,
        groups,
        told: told.join(" "),
        after: bytes(after.as_bytes()).unwrap(),
        file,
    }
}

/// The lines of a script of `editfile` that keep the grammar.
pub fn file_edits(seed: u64, count: usize) -> Vec<FileEdit> {
    let lines = answered("editfile", seed, count);
    let lines = lines.iter();
    lines.map(|(parts, told)| file_edit(parts, told)).collect()
}
