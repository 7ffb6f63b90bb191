//! Kinds of places, told from the bytes and the refusal alone, without the library's reader.

fn be(bytes: &[u8], place: usize) -> usize {
    let four: [u8; 4] = bytes[place..place + 4].try_into().unwrap();
    u32::from_be_bytes(four) as usize
}

/// What kind of place a refusal of `find` has.
pub fn file_kind(file: &[u8], number: u8, place: usize) -> String {
    match number {
        1 => format!("1 {}", head_kind(file)),
        3 if place == 0 => "3 file".to_string(),
        5 => {
            assert_eq!(place, file.len());
            let bare = 22 + be(file, 18) == file.len();
            let others = if bare { "no section" } else { "other sections" };
            format!("5 file length, {others}")
        }
        4 if file[place..].starts_with(b"CASM") => "4 CASM".to_string(),
        4 => "4 other tag".to_string(),
        _ => {
            let first = place == 22 + be(file, 18);
            let which = if first { "first" } else { "later" };
            let what = match number {
                3 => "CASM tag",
                _ if file.len() - place < 8 => "header cut",
                _ => "length past",
            };
            format!("{number} {what}, {which} section")
        }
    }
}

fn head_kind(file: &[u8]) -> &'static str {
    if file.len() < 22 {
        "short"
    } else if !file.starts_with(b"MThd") {
        "MThd"
    } else if be(file, 4) != 6 {
        "length not 6"
    } else if &file[14..18] != b"MTrk" {
        "MTrk"
    } else {
        "track past the end"
    }
}

/// What kind of place a refusal of a strict body has, and in which group it stands.
pub fn body_kind(body: &[u8], number: u8, place: usize) -> (String, usize) {
    if number == 3 {
        return ("3 body".to_string(), 0);
    }
    let mut group = 0;
    let mut at = 0;
    while place != at && place >= at + 8 + be(body, at + 4) {
        at += 8 + be(body, at + 4);
        group += 1;
    }
    let kind = if place == at {
        group_kind(body, number, at).to_string()
    } else {
        child_kind(&body[..at + 8 + be(body, at + 4)], number, at, place)
    };
    (format!("{number} {kind}"), group)
}

fn group_kind(body: &[u8], number: u8, at: usize) -> &'static str {
    match number {
        2 if body.len() - at < 8 => "group header cut",
        2 => "group length past the body",
        6 if &body[at..at + 4] != b"CSEG" => "group tag",
        6 => "group empty",
        12 => "33rd group",
        13 => "name of an earlier group",
        21 => "another edition",
        _ => panic!("{number} at a group's tag"),
    }
}

/// The name of a tag, or `other`.
fn tag_name(bytes: &[u8]) -> &'static str {
    ["CSEG", "Sdec", "Ctab", "Cntt", "Ctb2"]
        .into_iter()
        .find(|tag| tag.as_bytes() == &bytes[..4])
        .unwrap_or("other")
}

/// A place inside a group, which ends with the bytes given.
fn child_kind(group: &[u8], number: u8, at: usize, place: usize) -> String {
    let mut before = "CSEG";
    let mut children = Vec::new();
    let mut child = at + 8;
    while place != child && place >= child + 8 + be(group, child + 4) {
        before = tag_name(&group[child..]);
        children.push(&group[child..child + 8 + be(group, child + 4)]);
        child += 8 + be(group, child + 4);
    }
    if group.len() - child < 8 {
        assert_eq!((number, place), (2, child));
        return format!("header cut after {before}");
    }
    let tag = tag_name(&group[child..]);
    if place != child {
        assert_eq!(number, 9);
        return byte_kind(tag, place - child - 8, group[place], group[place - 1]);
    }
    match number {
        2 => format!("{tag} past the group"),
        6 => format!("{tag} after {before}"),
        7 => tag.to_string(),
        8 => text_kind(&group[child + 8..child + 8 + be(group, child + 4)]).to_string(),
        _ => channel_kind(number, &children, tag, group[child + 8]),
    }
}

/// Refusal 9: which byte, and on which side of its range; of a Ctb2's tables under which rule, and
/// whether another rule would allow it.
fn byte_kind(tag: &str, index: usize, value: u8, before: u8) -> String {
    match (tag, index) {
        ("Ctb2", 9) if value < 8 => "Ctb2 byte 9 below".to_string(),
        ("Ctb2", 23 | 29 | 35) => {
            let elsewhere = value & 0x7F <= 0x0A;
            let bass = if value < 0x80 { "" } else { ", bass" };
            let only = if elsewhere { " alone" } else { "" };
            format!("Ctb2 byte {index}, rule {before}{only}{bass}")
        }
        ("Ctb2", _) => format!("Ctb2 byte {index} above"),
        ("Ctab", 9) if value < 8 => "Ctab byte 9 below".to_string(),
        ("Ctab", _) => format!("Ctab byte {index} above"),
        ("Cntt", 0) => "Cntt channel above".to_string(),
        ("Cntt", 1) => format!("Cntt value {value:02X}"),
        _ => panic!("9 in {tag}"),
    }
}

/// Refusal 8: the first rule that the text breaks.
fn text_kind(text: &[u8]) -> &'static str {
    let names: Vec<&[u8]> = text.split(|&byte| byte == b',').collect();
    if text.is_empty() {
        "empty text"
    } else if text.len() > 255 {
        "long text"
    } else if text.iter().any(|&byte| byte < 0x20) {
        "byte below"
    } else if text.iter().any(|&byte| byte > 0x7E) {
        "byte above"
    } else if names.iter().any(|name| name.is_empty()) {
        "empty name"
    } else if names.iter().any(|name| name.len() > 16) {
        "long name"
    } else {
        "name twice"
    }
}

/// Refusals 10 and 11: how the channel stands to the children before it.
fn channel_kind(number: u8, children: &[&[u8]], tag: &str, channel: u8) -> String {
    let of = |tag: &str| -> Vec<u8> {
        children
            .iter()
            .filter(|child| tag_name(child) == tag)
            .map(|child| child[8])
            .collect()
    };
    let (ctabs, cntts) = (of("Ctab"), of("Cntt"));
    match (number, tag) {
        (10, "Ctab" | "Ctb2") => tag.to_string(),
        (10, "Cntt") if cntts.last() == Some(&channel) => "Cntt behind its first".to_string(),
        (10, "Cntt") if cntts.contains(&channel) => "Cntt behind others".to_string(),
        (11, "Cntt") if ctabs.is_empty() => "no Ctab at all".to_string(),
        (11, "Cntt") if !ctabs.contains(&channel) => "other Ctabs only".to_string(),
        _ => panic!("{number} at {tag}"),
    }
}

/// Whether before the place of a refusal some group has Cntts that do not stand as their Ctabs
/// do; and whether the last group before it has.
pub fn behind_another_order(body: &[u8], place: usize) -> (bool, bool) {
    let (mut seen, mut here) = (false, false);
    let (mut ctabs, mut rows) = (Vec::new(), Vec::new());
    let mut at = 0;
    while at < place && tag_name(&body[at..]) != "other" {
        let payload = at + 8;
        let end = payload + be(body, at + 4);
        match tag_name(&body[at..]) {
            "CSEG" => {
                (ctabs, rows, here) = (Vec::new(), Vec::new(), false);
                at = payload;
                continue;
            }
            "Ctab" if end <= place => ctabs.push(body[payload]),
            "Cntt" if end <= place => {
                rows.extend(ctabs.iter().position(|&channel| channel == body[payload]));
            }
            _ => (),
        }
        here |= !rows.is_sorted();
        seen |= here;
        at = end;
    }
    (seen, here)
}
