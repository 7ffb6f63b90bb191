//! The catalogue of style files for `find`: each refusal at each kind of place, refusals that
//! meet one another, and limits met and passed by one.

use crate::bytes::{CASM, HEADER};
use crate::gen::draft::{Chunk, StyleDraft};
use crate::gen::faults::GREAT_LENGTHS;
use crate::gen::spell::{body_line, spell_parts, Line};
use crate::style::{BODY_LIMIT, FILE_LIMIT, SHORTEST};
use crate::write::{chunk, group_bytes};

/// A style file of four sections, the CASM at this place among them.
fn sample(casm: usize) -> StyleDraft {
    let body = group_bytes(b"A", &[]);
    let mut file = StyleDraft::new(
        b"\0\xFF\x2F\0",
        &[(*b"OTSc", b"one touch"), (*b"FNRc", b""), (*b"MHhd", b"x")],
    );
    file.sections.insert(casm, Chunk::new(CASM, &body));
    file
}

pub fn find() -> Vec<Line> {
    let mut files = vec![
        sample(0).bytes(),
        sample(3).bytes(),
        StyleDraft::new(b"", &[(CASM, b"")]).bytes(),
    ];
    files.extend(meetings());
    files.extend(sections());
    files.extend(heads());
    let mut lines = limits();
    lines.extend(files.iter().map(|file| body_line("find", file, "")));
    lines
}

/// Refusal 1 by each of its causes, and what is no cause.
fn heads() -> Vec<Vec<u8>> {
    let whole = sample(1).bytes();
    let mut files: Vec<Vec<u8>> = (0..=SHORTEST)
        .map(|length| whole[..length].to_vec())
        .collect();
    let empty_track = StyleDraft::new(b"", &[]).bytes();
    files.push(empty_track[..21].to_vec());
    files.push(empty_track.clone());
    for place in (0..8).chain(14..22) {
        for value in [whole[place] ^ 0x20, whole[place].wrapping_add(1), 0xFF] {
            let mut file = whole.clone();
            file[place] = value;
            files.push(file);
        }
    }
    for place in 8..14 {
        let mut file = whole.clone();
        file[place] = 0xFF;
        files.push(file);
    }
    for over in [0, 1] {
        let mut file = sample(1);
        let rest: usize = file.sections.iter().map(Chunk::size).sum();
        file.track.declared = Some((4 + rest + over) as u32);
        files.push(file.bytes());
    }
    for length in GREAT_LENGTHS {
        let mut file = sample(1);
        file.track.declared = Some(length);
        files.push(file.bytes());
    }
    files
}

/// Refusals 2, 4 and 5 in the first, a middle and the last section; orders and odd tags.
fn sections() -> Vec<Vec<u8>> {
    let mut files = Vec::new();
    for loose in 1..=7 {
        let mut file = sample(2);
        file.tail = b"OTSc\0\0\0"[..loose].to_vec();
        files.push(file.bytes());
        file.sections.clear();
        files.push(file.bytes());
    }
    for number in 0..4 {
        for casm in [0, 3] {
            let mut file = sample(casm);
            let rest: usize = file.sections[number..].iter().map(Chunk::size).sum();
            for length in [rest - HEADER, rest - HEADER + 1, 0x0100_0000, 0xFFFF_FFF8] {
                file.sections[number].declared = Some(length as u32);
                files.push(file.bytes());
            }
        }
        let mut file = sample(2);
        for tag in [*b"OTSc", CASM, *b"FNRc", *b"MThd", *b"MTrk", *b"casm"] {
            file.sections[number].tag = tag;
            files.push(file.bytes());
        }
    }
    files.extend(tags());
    files
}

/// Tags that occur twice, later MThd and MTrk sections, and files without a CASM.
fn tags() -> Vec<Vec<u8>> {
    let of = |tags: &[&[u8; 4]]| {
        let sections: Vec<([u8; 4], &[u8])> =
            tags.iter().map(|&&tag| (tag, &b"CASM"[..])).collect();
        StyleDraft::new(b"CASM\0\0\0\0", &sections).bytes()
    };
    vec![
        of(&[]),
        of(&[b"CASm"]),
        of(&[b"CASM"]),
        of(&[b"CASM", b"CASM"]),
        of(&[b"MThd", b"MTrk", b"CASM"]),
        of(&[b"MThd", b"CASM", b"MThd"]),
        of(&[b"MTrk", b"MTrk", b"CASM"]),
        of(&[b"OTSc", b"otsc", b"OTSC"]),
        of(&[b"OTSc", b"CASM", b"OTSc"]),
        of(&[b"OTSc", b"OTSc"]),
        of(&[b"\0\0\0\0", b"\xFF\xFF\xFF\xFF", b"CASM"]),
        of(&[b"CASM", b"\0\0\0\0", b"\0\0\0\0"]),
    ]
}

/// Files where two refusals apply at once.
fn meetings() -> Vec<Vec<u8>> {
    let file = |tail: &[u8]| {
        let mut file = sample(1);
        file.tail = tail.to_vec();
        file.bytes()
    };
    let great = |tail: &[u8]| {
        let body = vec![0; BODY_LIMIT + 1];
        let mut file = StyleDraft::new(b"", &[(*b"OTSc", b""), (CASM, &body)]);
        file.tail = tail.to_vec();
        file.bytes()
    };
    let mut wrong_head = sample(1);
    wrong_head.head.tag = *b"MThx";
    wrong_head.tail = b"CASM".to_vec();
    vec![
        wrong_head.bytes(),
        file(b"OTSc\0\0\0\x01"),
        file(b"CASM\xFF\xFF\xFF\xFF"),
        file(b"CASM\0\0\0"),
        file(&[chunk(CASM, b""), b"x".to_vec()].concat()),
        StyleDraft::new(b"", &[(*b"OTSc", b""), (*b"OTSc", b"")]).bytes(),
        great(b""),
        great(b"x"),
        great(b"FNRc\0\0\0\x01"),
        great(b"OTSc\0\0\0\0"),
        great(b"CASM\0\0\0\0"),
        great(b"FNRc\0\0\0\0"),
    ]
}

/// Greatest file and greatest body, met and passed by one; many sections.
fn limits() -> Vec<Line> {
    let line = |parts: &[(&[u8], usize)]| format!("find {}", spell_parts(parts)).into_bytes();
    let in_casm = |declared: usize, held: usize| {
        let start = [head(0), CASM.to_vec(), be(declared)].concat();
        line(&[(&start, 1), (&[0], held)])
    };
    let mut lines = vec![line(&[(&[0], FILE_LIMIT + 1)]), line(&[(&[0], FILE_LIMIT)])];
    for over in [0, 1] {
        let bare = FILE_LIMIT - SHORTEST + over;
        let track = bare - HEADER;
        let empty = chunk(CASM, b"");
        lines.push(line(&[(&head(track), 1), (&[0], track), (&empty, 1)]));
        lines.push(line(&[(&head(bare), 1), (&[0], bare)]));
        lines.push(line(&[(&head(bare + 1), 1), (&[0], bare)]));
        lines.push(in_casm(track, track));
    }
    for body in [BODY_LIMIT - 1, BODY_LIMIT, BODY_LIMIT + 1] {
        lines.push(in_casm(body, body));
        lines.push(in_casm(body + 1, body));
    }
    let tags = |list: &[usize]| -> Vec<u8> {
        let sections = list.iter().map(|&tag| [be(tag), be(0)].concat());
        [head(0), sections.flatten().collect(), chunk(CASM, b"")].concat()
    };
    let many: Vec<usize> = (0..200).collect();
    lines.push(body_line("find", &tags(&many), ""));
    lines.push(body_line("find", &tags(&[many, vec![150]].concat()), ""));
    lines
}

/// A sound MThd and the header of a track of this length.
fn head(track: usize) -> Vec<u8> {
    [b"MThd\0\0\0\x06\0\0\0\x01\0\x60MTrk".to_vec(), be(track)].concat()
}

fn be(length: usize) -> Vec<u8> {
    (length as u32).to_be_bytes().to_vec()
}
