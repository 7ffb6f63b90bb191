//! Style files for the program `list`: sound, empty, without CASM, at its limit and one byte past
//! it, a file cut at every place, and files whose body is damaged; bodies of the second edition and
//! damaged ones that hold both.

use crate::edition::Edition;
use crate::gen::ctb2_bodies;
use crate::gen::dice::Dice;
use crate::gen::draft::{Draft, StyleDraft};
use crate::gen::families::{ctb2_family_body, family, family_body};
use crate::list::LIST_LIMIT;

/// So many files of a seed, and more where the fixed ones are more.
pub fn style_files(seed: u64, count: usize) -> Vec<Vec<u8>> {
    let mut dice = Dice::new(seed);
    let body = family_body(&mut dice);
    let whole = with_body(&body);
    let mut files = vec![
        Vec::new(),
        whole.clone(),
        with_body(&[]),
        StyleDraft::new(b"", &[(*b"OTSc", b"ots")]).bytes(),
        of_length(&body, LIST_LIMIT),
        of_length(&body, LIST_LIMIT + 1),
        with_body(&great_body()),
    ];
    let second = ctb2_family_body(&mut dice);
    let both = both_editions();
    files.extend([&second, &both].map(|body| with_body(body)));
    for body in ctb2_bodies::bodies(&mut dice).iter().step_by(4) {
        files.push(with_body(body));
    }
    files.extend((0..whole.len()).map(|length| whole[..length].to_vec()));
    let damaged = [&body, &second, &both].map(|body| family(&mut dice, body));
    while files.len() < count {
        let of = &damaged[dice.pick(&[0, 0, 1, 2])];
        let bytes = &of[dice.below(of.len())];
        files.push(with_body(bytes));
    }
    files
}

/// A body of groups of both editions, which `list` shows all the same; CSEG stands only where a
/// group begins.
fn both_editions() -> Vec<u8> {
    let group = |text: &[u8], edition, channel| {
        Draft::new(text, &[ctb2_bodies::plain(edition, channel)]).bytes()
    };
    [
        group(b"A", Edition::First, 3),
        group(b"B", Edition::Second, 3),
        Draft::new(b"C", &[]).bytes(),
        group(b"D", Edition::First, 0),
        group(b"E", Edition::Second, 15),
    ]
    .concat()
}

/// A style file around a CASM body.
fn with_body(body: &[u8]) -> Vec<u8> {
    StyleDraft::new(
        &[0x00, 0xFF, 0x2F, 0x00],
        &[(*b"CASM", body), (*b"OTSc", b"ots")],
    )
    .bytes()
}

/// A style file of so many bytes, by a section that fills it up.
fn of_length(body: &[u8], length: usize) -> Vec<u8> {
    let rest = with_body(body).len() + 8;
    let filler = vec![0x43; length - rest];
    StyleDraft::new(
        &[0x00, 0xFF, 0x2F, 0x00],
        &[(*b"CASM", body), (*b"OTSc", b"ots"), (*b"FNRc", &filler)],
    )
    .bytes()
}

/// A body at its limit: groups, then CSEG as often as it fits.
fn great_body() -> Vec<u8> {
    let mut body = Draft::new(b"Main A,Main B", &[]).bytes();
    while body.len() + 4 <= 32_768 {
        body.extend(b"CSEG");
    }
    body.resize(32_768, 0x45);
    body
}
