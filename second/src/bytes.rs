//! Tags and lengths of chunks: "All lengths in the file are four bytes, high byte first",
//! and refusal 2, "fewer than 8 bytes for a chunk header, or its length past its parent".

use crate::refusal::{refuse, Answer};

pub type Tag = [u8; 4];

/// Bytes of a chunk header: four tag bytes and four length bytes.
pub const HEADER: usize = 8;

pub const MTHD: Tag = *b"MThd";
pub const MTRK: Tag = *b"MTrk";
pub const CASM: Tag = *b"CASM";
pub const CSEG: Tag = *b"CSEG";
pub const SDEC: Tag = *b"Sdec";
pub const CTAB: Tag = *b"Ctab";
pub const CTB2: Tag = *b"Ctb2";
pub const CNTT: Tag = *b"Cntt";

/// The four bytes at a place; they must be there.
pub fn four(bytes: &[u8], place: usize) -> [u8; 4] {
    [
        bytes[place],
        bytes[place + 1],
        bytes[place + 2],
        bytes[place + 3],
    ]
}

/// Bytes as one number, high byte first.
pub fn number(bytes: &[u8]) -> u64 {
    bytes
        .iter()
        .fold(0, |sum, &byte| sum * 256 + u64::from(byte))
}

/// A chunk header as it stands, nothing yet asked of its length.
#[derive(Clone, Copy, Debug, PartialEq, Eq)]
pub struct Header {
    pub place: usize,
    pub tag: Tag,
    pub length: u64,
}

/// The chunk header at a place of its parent, or 2 where fewer than 8 bytes are left.
pub fn header(parent: &[u8], place: usize) -> Answer<Header> {
    if parent.len() - place < HEADER {
        return refuse(2, place);
    }
    Ok(Header {
        place,
        tag: four(parent, place),
        length: number(&four(parent, place + 4)),
    })
}

/// The payload of a chunk, or 2 where its length runs past the parent.
pub fn payload(parent: &[u8], header: Header) -> Answer<&[u8]> {
    let rest = &parent[header.place + HEADER..];
    if header.length > rest.len() as u64 {
        return refuse(2, header.place);
    }
    Ok(&rest[..header.length as usize])
}
