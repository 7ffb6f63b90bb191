//! Style files for the checks of two of them: around a body, changed outside it in each way, and
//! with each refusal of the finding.

use crate::body::read_body;
use crate::bytes::{Tag, CASM};
use crate::gen::dice::Dice;
use crate::gen::draft::{Chunk, StyleDraft};
use crate::style::{find, BODY_LIMIT};

/// Files around a body: the CASM between others, alone, first and last; the letters CASM and CSEG
/// and whole headers of them in the track and in other sections; a CASM behind byte 256.
pub fn around(body: &[u8]) -> [StyleDraft; 6] {
    let of = |track: &[u8], in_front: &[(Tag, &[u8])], behind: &[(Tag, &[u8])]| {
        StyleDraft::new(track, &[in_front, &[(CASM, body)], behind].concat())
    };
    [
        of(
            b"\0\xFF\x2F\0",
            &[(*b"OTSc", b"one"), (*b"FNRp", b"two")],
            &[(*b"FNRc", b""), (*b"MHhd", b"xyz")],
        ),
        of(b"", &[], &[]),
        of(b"t", &[], &[(*b"OTSc", b"CASM\0\0\0\0")]),
        of(
            b"CASM\0\0\0\x01C",
            &[(*b"FNRc", b""), (*b"OTSc", b"CSEG\0\0\0")],
            &[],
        ),
        of(
            b"",
            &[(*b"MThd", b""), (*b"MTrk", b"ab")],
            &[(*b"casm", b"abc"), (*b"\0\0\0\0", b"\0")],
        ),
        of(b"track", &[(*b"OTSc", &[0x20; 300])], &[(*b"FNRc", b"end")]),
    ]
}

/// Whether a file has a CASM that can be found and read.
pub fn readable(file: &[u8]) -> bool {
    find(file).is_ok_and(|found| read_body(found.body(file)).is_ok())
}

/// The file changed outside its CASM's body, once in each way that leaves its headers true: in
/// MThd's six bytes, in the track, in each other section, in the order of the sections, by one more
/// and by one less; and a byte that has gone from one to another.
pub fn unlike_outside(file: &StyleDraft) -> Vec<StyleDraft> {
    let mut list = Vec::new();
    let mut put = |change: &dyn Fn(&mut StyleDraft)| {
        let mut unlike = file.clone();
        change(&mut unlike);
        list.push(unlike);
    };
    for place in 0..6 {
        put(&|file| file.head.payload[place] ^= 1);
    }
    for place in 0..file.track.payload.len() {
        put(&|file| file.track.payload[place] ^= 0x80);
    }
    put(&|file| file.track.payload.push(0));
    put(&|file| shorten(&mut file.track));
    let count = file.sections.len();
    for number in 0..=count {
        put(&|file| file.sections.insert(number, Chunk::new(*b"More", b"")));
        put(&|file| file.sections.insert(number, Chunk::new(*b"Casm", b"more")));
    }
    let others = (0..count).filter(|&number| file.sections[number].tag != CASM);
    for number in others {
        for change in SECTION_CHANGES {
            put(&|file| change(&mut file.sections[number]));
        }
        put(&|file| drop(file.sections.remove(number)));
        put(&|file| {
            let byte = file.sections[number].payload.pop();
            file.track.payload.extend(byte);
        });
    }
    for later in 1..count {
        for earlier in 0..later {
            put(&|file| file.sections.swap(earlier, later));
        }
    }
    list
}

/// A chunk without its last byte, if it has one.
fn shorten(chunk: &mut Chunk) {
    chunk.payload.pop();
}

/// Changes of one section other than the CASM.
const SECTION_CHANGES: [fn(&mut Chunk); 6] = [
    |section| section.tag[0] ^= 0x80,
    |section| section.tag[3] ^= 1,
    |section| section.payload.push(0x43),
    shorten,
    |section| {
        section
            .payload
            .iter_mut()
            .take(1)
            .for_each(|byte| *byte ^= 1)
    },
    |section| {
        section
            .payload
            .iter_mut()
            .rev()
            .take(1)
            .for_each(|byte| *byte ^= 1)
    },
];

/// Files made of a sound one whose finding is refused: 1, 2, 3, 4 and 5 by each of its causes but
/// for a file that is too long.
pub fn damaged(file: &StyleDraft) -> Vec<Vec<u8>> {
    let whole = file.bytes();
    let mut list = vec![Vec::new(), whole[..21].to_vec()];
    list.push(whole[..whole.len() - 1].to_vec());
    let mut put = |change: &dyn Fn(&mut StyleDraft)| {
        let mut bad = file.clone();
        change(&mut bad);
        list.push(bad.bytes());
    };
    put(&|file| file.head.tag = *b"MThx");
    put(&|file| file.head.declared = Some(7));
    put(&|file| file.track.tag = *b"mTrk");
    put(&|file| file.track.declared = Some(whole.len() as u32 - 21));
    put(&|file| file.tail = b"O".to_vec());
    put(&|file| file.tail = b"FNRx\0\0\0".to_vec());
    put(&|file| file.tail = b"FNRx\0\0\0\x01".to_vec());
    put(&|file| file.sections.push(Chunk::new(CASM, b"")));
    put(&|file| file.sections.insert(0, Chunk::new(CASM, b"")));
    put(&|file| file.sections.push(file.sections[0].clone()));
    put(&|file| file.sections.clear());
    for number in 0..file.sections.len() {
        for length in [whole.len() as u32, 0xFFFF_FFF8] {
            put(&|file| file.sections[number].declared = Some(length));
        }
        if file.sections[number].tag == CASM {
            put(&|file| file.sections[number].tag = *b"CASm");
            put(&|file| file.sections[number].payload = vec![0; BODY_LIMIT + 1]);
        }
    }
    list
}

/// A file around a body that a last section fills up to a length.
pub fn filled(body: &[u8], length: usize) -> Vec<u8> {
    let sections: [(Tag, &[u8]); 2] = [(CASM, body), (*b"Fill", b"")];
    let mut file = StyleDraft::new(b"", &sections);
    let rest = length - file.bytes().len();
    file.sections[1].payload = vec![0; rest];
    file.bytes()
}

/// The tags of other sections in the mixture's files.
const TAGS: [Tag; 8] = [
    *b"OTSc",
    *b"FNRc",
    *b"MHhd",
    *b"MThd",
    *b"MTrk",
    *b"casm",
    *b"CSEG",
    *b"\0\0\0\0",
];

/// Some file around a body, no tag twice.
pub fn some_file(dice: &mut Dice, body: &[u8]) -> StyleDraft {
    let mut some_bytes = |most: usize| -> Vec<u8> {
        let length = dice.below(most + 1);
        (0..length).map(|_| dice.byte()).collect()
    };
    let mut file = StyleDraft::new(&some_bytes(5), &[]);
    let payloads = [some_bytes(8), some_bytes(8), some_bytes(1)];
    let first = dice.below(TAGS.len());
    for (number, payload) in payloads.iter().enumerate().take(dice.below(4)) {
        let tag = TAGS[(first + 3 * number) % TAGS.len()];
        file.sections.push(Chunk::new(tag, payload));
    }
    let place = dice.below(file.sections.len() + 1);
    file.sections.insert(place, Chunk::new(CASM, body));
    file
}
