//! Drafts of groups and style files: chunks whose declared length may lie, so that a fault
//! can be put at one spot and all else stays sound.

use crate::bytes::{Tag, CNTT, CSEG, SDEC};
use crate::gen::cntts::position;
use crate::record::Record;

/// A chunk; a declared length stands in the header in place of the true one.
#[derive(Clone, Debug)]
pub struct Chunk {
    pub tag: Tag,
    pub declared: Option<u32>,
    pub payload: Vec<u8>,
}

impl Chunk {
    pub fn new(tag: Tag, payload: &[u8]) -> Chunk {
        Chunk {
            tag,
            declared: None,
            payload: payload.to_vec(),
        }
    }

    pub fn bytes(&self) -> Vec<u8> {
        let length = self.declared.unwrap_or(self.payload.len() as u32);
        let mut bytes = self.tag.to_vec();
        bytes.extend(length.to_be_bytes());
        bytes.extend(&self.payload);
        bytes
    }

    /// Bytes of header and payload as they truly stand.
    pub fn size(&self) -> usize {
        8 + self.payload.len()
    }
}

/// A group: its children, then loose bytes inside it.
#[derive(Clone, Debug)]
pub struct Draft {
    pub tag: Tag,
    pub declared: Option<u32>,
    pub children: Vec<Chunk>,
    pub tail: Vec<u8>,
}

impl Draft {
    /// The draft of a sound group, if text and records are sound; its Cntts stand by position,
    /// and those of one position as their records do.
    pub fn new(text: &[u8], records: &[Record]) -> Draft {
        let mut children = vec![Chunk::new(SDEC, text)];
        children.extend(records.iter().map(record_chunk));
        let mut by_position: Vec<&Record> = records.iter().collect();
        by_position.sort_by_key(|record| position(record));
        for record in by_position {
            if let Some(value) = record.second_table() {
                children.push(cntt(record.source_channel(), value));
            }
        }
        Draft {
            tag: CSEG,
            declared: None,
            children,
            tail: Vec::new(),
        }
    }

    pub fn payload(&self) -> Vec<u8> {
        let mut bytes: Vec<u8> = self.children.iter().flat_map(Chunk::bytes).collect();
        bytes.extend(&self.tail);
        bytes
    }

    pub fn bytes(&self) -> Vec<u8> {
        let group = Chunk {
            tag: self.tag,
            declared: self.declared,
            payload: self.payload(),
        };
        group.bytes()
    }

    /// The children of a tag, as numbers among all children.
    pub fn numbers(&self, tag: Tag) -> Vec<usize> {
        (0..self.children.len())
            .filter(|&number| self.children[number].tag == tag)
            .collect()
    }

    /// The first (0), a middle (1) or the last (2) child of a tag.
    pub fn spot(&self, tag: Tag, spot: usize) -> Option<usize> {
        let numbers = self.numbers(tag);
        let last = numbers.len().checked_sub(1)?;
        let wanted = match spot {
            0 => 0,
            1 => last / 2,
            _ => last,
        };
        Some(numbers[wanted])
    }

    /// Turns the Cntts round.
    pub fn reverse_cntts(&mut self) {
        let numbers = self.numbers(CNTT);
        for (&first, &last) in numbers.iter().zip(numbers.iter().rev()) {
            if first < last {
                self.children.swap(first, last);
            }
        }
    }

    /// Bytes of the group that stand after a child's header.
    pub fn rest_after_header(&self, number: usize) -> usize {
        let later: usize = self.children[number..].iter().map(Chunk::size).sum();
        later - 8 + self.tail.len()
    }
}

/// A record's Ctab or Ctb2.
pub fn record_chunk(record: &Record) -> Chunk {
    let edition = record.edition();
    let mut payload = record.bytes().to_vec();
    payload.resize(edition.size(), 0x00);
    Chunk::new(edition.tag(), &payload)
}

pub fn cntt(channel: u8, value: u8) -> Chunk {
    Chunk::new(CNTT, &[channel, value])
}

/// All bytes of a body of drafts.
pub fn body_bytes(groups: &[Draft]) -> Vec<u8> {
    groups.iter().flat_map(Draft::bytes).collect()
}

/// A style file: MThd, MTrk, sections and loose bytes after them.
#[derive(Clone, Debug)]
pub struct StyleDraft {
    pub head: Chunk,
    pub track: Chunk,
    pub sections: Vec<Chunk>,
    pub tail: Vec<u8>,
}

impl StyleDraft {
    pub fn new(track: &[u8], sections: &[(Tag, &[u8])]) -> StyleDraft {
        StyleDraft {
            head: Chunk::new(*b"MThd", &[0, 0, 0, 1, 0x01, 0xE0]),
            track: Chunk::new(*b"MTrk", track),
            sections: sections
                .iter()
                .map(|(tag, bytes)| Chunk::new(*tag, bytes))
                .collect(),
            tail: Vec::new(),
        }
    }

    pub fn bytes(&self) -> Vec<u8> {
        let mut bytes = self.head.bytes();
        bytes.extend(self.track.bytes());
        for section in &self.sections {
            bytes.extend(section.bytes());
        }
        bytes.extend(&self.tail);
        bytes
    }
}
