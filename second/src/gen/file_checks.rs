//! Lines on style files that other editors return: the pairs of bodies of `checks` inside files,
//! files that differ outside the CASM, in the order of their sections and in their lengths, and
//! each refusal of a file's finding and of a body where it meets the next.

use crate::body::read_body;
use crate::bytes::{Tag, CASM, CNTT, CSEG, SDEC};
use crate::edition::Edition;
use crate::gen::bodies::{longest_sound, many, named};
use crate::gen::checks::{self, ask, edited, pair, unlike_at, Ask, Pair, BOTH};
use crate::gen::cntts::{at_position, with_cntt};
use crate::gen::ctb2_bodies::{other, plain};
use crate::gen::dice::Dice;
use crate::gen::draft::StyleDraft;
use crate::gen::file_drafts::{around, damaged, filled, readable, some_file, unlike_outside};
use crate::gen::in_turn;
use crate::gen::lookups::every_record;
use crate::gen::spell::Line;
use crate::lookup::find_channel;
use crate::style::{find, BODY_LIMIT, FILE_LIMIT};
use crate::write::{chunk, group_bytes};

/// Of a hundred pairs of bodies so many are put into files.
const PAIRS_AROUND: usize = 20;

pub fn checkedfile(dice: &mut Dice) -> Vec<Line> {
    let mut lists = vec![of_great_files(dice), around_pairs(dice)];
    for edition in BOTH {
        let body = small_body(edition);
        let files = around(&body);
        lists.push(of_every_place(dice, &files[0]));
        lists.push(of_sections(dice, &files));
        lists.push(of_moved_ends(dice, &body));
        lists.push(of_renumbered(&files[1..4]));
        lists.push(of_the_last_place(dice, edition));
        lists.push(behind_the_record(dice, edition));
        lists.push(of_findings(&files));
        lists.push(of_bad_bodies(&body, edition));
        lists.push(of_meetings(&body, edition));
    }
    let pairs = in_turn(lists).into_iter();
    pairs.map(|pair| pair.line("checkedfile")).collect()
}

/// Group "A" of channels 5 and 2, with a Cntt each where there can be one, a group without records
/// and a group "C" of channel 5.
pub fn small_body(edition: Edition) -> Vec<u8> {
    let record = |channel, position| {
        let with = with_cntt(plain(edition, channel), Some(0x84));
        at_position(with, position)
    };
    [
        group_bytes(b"A", &[record(5, 2), record(2, 1)]),
        named("B"),
        group_bytes(b"C", &[plain(edition, 5)]),
    ]
    .concat()
}

/// A file with another sound record where one stands in its body.
fn edited_file(dice: &mut Dice, file: &[u8], asked: Ask) -> Vec<u8> {
    let Ok(found) = find(file) else {
        return file.to_vec();
    };
    let start = found.body_place();
    let body = edited(dice, found.body(file), asked);
    [&file[..start], &body, &file[start + body.len()..]].concat()
}

/// One of the records of a file's body.
fn some_record(dice: &mut Dice, file: &[u8]) -> Ask {
    let found = find(file).map_or(&[][..], |found| found.body(file));
    match every_record(found).as_slice() {
        [] => ask(0, 5),
        records => {
            let (number, channel) = dice.pick(records);
            ask(number, channel)
        }
    }
}

/// Some of the pairs of bodies, and all of one length and of locks, inside files.
fn around_pairs(dice: &mut Dice) -> Vec<Pair> {
    let mut pairs = checks::of_one_length();
    for edition in BOTH {
        pairs.extend(checks::of_locks(dice, &small_body(edition)));
        pairs.extend(checks::of_moved_ends(dice, edition));
    }
    for bodies in checks::pairs(dice) {
        if dice.percent(PAIRS_AROUND) {
            pairs.push(bodies);
        }
    }
    pairs.iter().map(|pair| around_pair(dice, pair)).collect()
}

/// Two bodies in the same file, at times in two.
fn around_pair(dice: &mut Dice, bodies: &Pair) -> Pair {
    let [own, other] = [dice.below(6), dice.below(6)];
    let place = if dice.percent(12) { other } else { own };
    let before = around(&bodies.before)[own].bytes();
    let after = around(&bodies.after)[place].bytes();
    pair(&before, &after, bodies.asked)
}

/// Every place of a file: unlike there where it can be, with the record edited too at times; else
/// some other byte there, which spoils it.
fn of_every_place(dice: &mut Dice, file: &StyleDraft) -> Vec<Pair> {
    let file = file.bytes();
    let mut pairs = Vec::new();
    for place in 0..file.len() {
        let asked = some_record(dice, &file);
        let Some(unlike) = unlike_at(dice, &file, place, readable) else {
            let mut spoiled = file.clone();
            spoiled[place] ^= 0x41;
            pairs.push(pair(&file, &spoiled, asked));
            continue;
        };
        pairs.push(pair(&file, &unlike, asked));
        if dice.percent(30) {
            let both = edited_file(dice, &unlike, asked);
            pairs.push(pair(&file, &both, asked));
        }
    }
    pairs
}

/// Files changed outside their bodies: alone, the other way round, and with the record edited.
fn of_sections(dice: &mut Dice, files: &[StyleDraft]) -> Vec<Pair> {
    let mut pairs = Vec::new();
    for file in files {
        let before = file.bytes();
        for after in unlike_outside(file) {
            let after = after.bytes();
            let asked = some_record(dice, &before);
            match dice.below(3) {
                0 => pairs.push(pair(&before, &after, asked)),
                1 => pairs.push(pair(&after, &before, asked)),
                _ => pairs.push(pair(&before, &edited_file(dice, &after, asked), asked)),
            }
        }
    }
    pairs
}

/// Files of the same bytes but for a length, so that one chunk ends where it did not: a track or a
/// section that holds the next section too, and a CASM that ends before its last group, which is a
/// section of its own then.
fn of_moved_ends(dice: &mut Dice, body: &[u8]) -> Vec<Pair> {
    let mut pairs = Vec::new();
    let groups = read_body(body).unwrap_or_default();
    let last = groups.last().map_or(0, |group| group.place);
    for file in around(body) {
        let whole = file.bytes();
        let mut ends = Vec::new();
        if let Some(first) = file.sections.first() {
            let mut longer = file.clone();
            longer.track.declared = Some((file.track.payload.len() + first.size()) as u32);
            ends.push(longer.bytes());
        }
        for number in 1..file.sections.len() {
            let mut longer = file.clone();
            let both = file.sections[number - 1].payload.len() + file.sections[number].size();
            longer.sections[number - 1].declared = Some(both as u32);
            ends.push(longer.bytes());
        }
        let mut shorter = file.clone();
        for section in shorter.sections.iter_mut().filter(|of| of.tag == CASM) {
            section.declared = Some(last as u32);
        }
        ends.push(shorter.bytes());
        for moved in ends {
            let asked = some_record(dice, &whole);
            pairs.push(pair(&whole, &moved, asked));
            pairs.push(pair(&moved, &whole, asked));
        }
    }
    pairs
}

/// Records of another channel, which no longer have their Cntt where they had one: asked for by
/// either channel, and the other way round.
fn of_renumbered(files: &[StyleDraft]) -> Vec<Pair> {
    const NEW: u8 = 9;
    let mut pairs = Vec::new();
    for file in files.iter().map(StyleDraft::bytes) {
        let Ok(found) = find(&file) else {
            continue;
        };
        let body = found.body(&file);
        for (number, channel) in every_record(body) {
            let place = find_channel(body, number as u32, channel).map_or(0, |(_, place)| place);
            let mut after = file.clone();
            after[found.body_place() + place] = NEW;
            pairs.push(pair(&file, &after, ask(number, channel)));
            pairs.push(pair(&file, &after, ask(number, NEW)));
            pairs.push(pair(&after, &file, ask(number, NEW)));
        }
    }
    pairs
}

/// Bodies that end in a record, in a name and in a Cntt where there is one, each of channel 5 first.
fn bodies_by_end(edition: Edition) -> [Vec<u8>; 3] {
    let last = at_position(with_cntt(plain(edition, 2), Some(0x84)), 1);
    let record = group_bytes(b"A", &[plain(edition, 5), plain(edition, 2)]);
    let name = [&record[..], &named("Last")].concat();
    let cntt = group_bytes(b"A", &[plain(edition, 5), last]);
    [record, name, cntt]
}

/// The last byte of files, in the record asked for, in another one and in all else.
fn of_the_last_place(dice: &mut Dice, edition: Edition) -> Vec<Pair> {
    let mut pairs = Vec::new();
    for body in bodies_by_end(edition) {
        for file in around(&body) {
            let file = file.bytes();
            if let Some(unlike) = unlike_at(dice, &file, file.len() - 1, readable) {
                for channel in [5, 2] {
                    pairs.push(pair(&file, &unlike, ask(0, channel)));
                    pairs.push(pair(&unlike, &file, ask(0, channel)));
                }
            }
        }
    }
    pairs
}

/// A record that stands last in its body: what stands just behind it is a section's tag, which may
/// be another one, or nothing, and then a section may come.
fn behind_the_record(dice: &mut Dice, edition: Edition) -> Vec<Pair> {
    let [body, ..] = bodies_by_end(edition);
    let asked = ask(0, 2);
    let mut pairs = Vec::new();
    for file in around(&body) {
        let file = file.bytes();
        let end = find(&file).map_or(0, |found| found.body_place() + body.len());
        let mut list: Vec<Vec<u8>> = (end..file.len())
            .take(6)
            .filter_map(|place| unlike_at(dice, &file, place, readable))
            .collect();
        list.push([&file[..], b"More\0\0\0\0"].concat());
        for unlike in list {
            pairs.push(pair(&file, &unlike, asked));
            pairs.push(pair(&unlike, &file, asked));
            pairs.push(pair(&file, &edited_file(dice, &unlike, asked), asked));
        }
    }
    pairs
}

/// Each refusal of a finding in the before file, in the after file, in both alike and otherwise.
fn of_findings(files: &[StyleDraft]) -> Vec<Pair> {
    let sound = files[2].bytes();
    let mut pairs = Vec::new();
    let mut last = sound[..sound.len() - 1].to_vec();
    for file in [&files[0], &files[3]] {
        for (turn, bad) in damaged(file).into_iter().enumerate() {
            let asked = [ask(0, 5), ask(0, 7), ask(9, 5), ask(1, 255)][turn % 4];
            pairs.push(pair(&bad, &sound, asked));
            pairs.push(pair(&sound, &bad, asked));
            pairs.push(pair(&last, &bad, asked));
            if turn % 3 == 0 {
                pairs.push(pair(&bad, &bad, asked));
            }
            last = bad;
        }
    }
    pairs
}

/// Bodies that are refused by each number but 3: 2, 6, 8 and 9 in the first group, 7, 10, 11, 12, 13
/// and 21 behind the last, and 2 where that is cut.
pub fn bad_bodies(body: &[u8], edition: Edition) -> [Vec<u8>; 11] {
    let set = |place: usize, value: u8| {
        let mut bad = body.to_vec();
        bad[place] = value;
        bad
    };
    let record = plain(edition, 5);
    let cut = [
        body,
        &chunk(
            CSEG,
            &[&chunk(SDEC, b"D"), &chunk(edition.tag(), &[5])[..]].concat(),
        ),
    ];
    let cntt = [chunk(SDEC, b"D"), chunk(CNTT, &[5, 0x84])].concat();
    let unlike = group_bytes(b"Other", &[plain(other(edition), 4)]);
    [
        set(4, 1),
        set(8, b'X'),
        set(16, 0x1F),
        set(25 + 9, 0x07),
        cut.concat(),
        [body, &group_bytes(b"D", &[record, record])].concat(),
        [body, &chunk(CSEG, &cntt)].concat(),
        [body, &many(30)].concat(),
        [body, &named("A")].concat(),
        [body, &unlike].concat(),
        body[..body.len() - 1].to_vec(),
    ]
}

/// Each of them in the before file, in the after file, and beside the next one; the CASM at the same
/// place and at two.
fn of_bad_bodies(body: &[u8], edition: Edition) -> Vec<Pair> {
    let bad = bad_bodies(body, edition);
    let mut pairs = Vec::new();
    for number in 0..bad.len() {
        let next = (number + 1) % bad.len();
        for (one, two) in [(0, 0), (3, 0), (2, 5), (1, 4)] {
            let sound = around(body)[two].bytes();
            let spoiled = around(&bad[number])[one].bytes();
            let asked = [ask(0, 5), ask(0, 7), ask(1, 2), ask(9, 5)][(number + one) % 4];
            pairs.push(pair(&spoiled, &sound, asked));
            pairs.push(pair(&sound, &spoiled, asked));
            if one != two {
                pairs.push(pair(&spoiled, &around(&bad[next])[two].bytes(), asked));
            }
        }
    }
    pairs
}

/// Refusals that meet: two findings, a finding and a body, two bodies, a body and 16 or 15, and 16
/// and 15; the CASM at the same place in both files and at two.
fn of_meetings(body: &[u8], edition: Edition) -> Vec<Pair> {
    let bad = bad_bodies(body, edition);
    let more = [body, &group_bytes(b"D", &[plain(edition, 7)])].concat();
    let mut pairs = Vec::new();
    let asks = [
        (0, 5),
        (0, 7),
        (1, 5),
        (3, 7),
        (3, 16),
        (4_294_967_295, 255),
    ];
    for (turn, (number, channel)) in asks.into_iter().enumerate() {
        let asked = ask(number, channel);
        let (one, two) = (turn % 6, (turn + 1 + turn / 3) % 6);
        let [first, second] = [one, two].map(|place| around(body)[place].bytes());
        let longer = around(&more)[one].bytes();
        let mut put = |before: &[u8], after: &[u8]| pairs.push(pair(before, after, asked));
        for number in [turn, turn + 4, turn + 8].map(|number| number % bad.len()) {
            let [own, elsewhere] = [one, two].map(|place| around(&bad[number])[place].bytes());
            let unlike = around(&bad[(number + 1) % bad.len()])[two].bytes();
            let both = [&own[..], b"x"].concat();
            let not_found = &second[..second.len() - 1];
            put(&own, &first);
            put(&own, &second);
            put(&first, &own);
            put(&first, &elsewhere);
            put(&own, &unlike);
            put(&own, not_found);
            put(not_found, &own);
            put(&both, &first);
            put(&first, &both);
            put(&both, &unlike);
            put(&own, &both);
        }
        put(&first, &first);
        put(&first, &second);
        put(&first, &longer);
        put(&longer, &first);
        put(&around(&[])[one].bytes(), &first);
        put(&first, &around(&[])[one].bytes());
    }
    pairs
}

/// Files at the limit and over it, places behind 65,535, bodies at their limit and over it, and the
/// longest sound body.
fn of_great_files(dice: &mut Dice) -> Vec<Pair> {
    let small = small_body(Edition::First);
    let asked = ask(0, 2);
    let mut pairs = Vec::new();
    let [limit, over] = [0, 1].map(|more| filled(&small, FILE_LIMIT + more));
    let mut last = limit.clone();
    last[FILE_LIMIT - 1] = 1;
    let short = filled(&small, 300);
    for after in [
        &limit,
        &edited_file(dice, &limit, asked),
        &last,
        &over,
        &short,
    ] {
        pairs.push(pair(&limit, after, asked));
    }
    for (before, after) in [(&over, &short), (&short, &over), (&over, &over)] {
        pairs.push(pair(before, after, asked));
        pairs.push(pair(before, &after[..after.len() - 2], ask(9, 77)));
    }
    let sections: [(Tag, &[u8]); 3] = [(*b"OTSc", &[0; 70_000]), (CASM, &small), (*b"FNRc", b"f")];
    let far = StyleDraft::new(b"", &sections).bytes();
    let mut bad = far.clone();
    bad[70_030 + 8 + 16] = 0x1F;
    pairs.push(pair(&far, &edited_file(dice, &far, asked), asked));
    pairs.push(pair(&far, &edited_file(dice, &far, asked), ask(0, 5)));
    pairs.push(pair(&far, &bad, asked));
    pairs.push(pair(&bad, &far, asked));
    pairs.extend(of_great_bodies(dice));
    pairs
}

/// Bodies of 32,768 bytes, which are read, and of 32,769, which are not found.
fn of_great_bodies(dice: &mut Dice) -> Vec<Pair> {
    let mut pairs = Vec::new();
    let sound = filled(&small_body(Edition::Second), 300);
    for length in [BODY_LIMIT, BODY_LIMIT + 1] {
        for start in [&CSEG[..], &named("A")] {
            let mut body = start.to_vec();
            body.resize(length, 0);
            for file in [&around(&body)[0], &around(&body)[3]].map(StyleDraft::bytes) {
                pairs.push(pair(&file, &sound, ask(0, 5)));
                pairs.push(pair(&sound, &file, ask(0, 5)));
            }
        }
    }
    let longest = around(&longest_sound(dice))[0].bytes();
    let asked = some_record(dice, &longest);
    pairs.push(pair(&longest, &edited_file(dice, &longest, asked), asked));
    pairs
}

/// Two files around two bodies: mostly the same but for these; at times unlike outside them, another
/// one, or damaged.
pub fn somehow_around(dice: &mut Dice, bodies: &Pair) -> Pair {
    let file = some_file(dice, &bodies.before);
    let mut same = file.clone();
    for section in same.sections.iter_mut().filter(|of| of.tag == CASM) {
        section.payload = bodies.after.clone();
    }
    let one_of = |dice: &mut Dice, mut list: Vec<Vec<u8>>| list.swap_remove(dice.below(list.len()));
    let after = match dice.below(100) {
        0..=17 => {
            let unlike = unlike_outside(&same);
            one_of(dice, unlike.iter().map(StyleDraft::bytes).collect())
        }
        18..=22 => some_file(dice, &bodies.after).bytes(),
        23..=29 => one_of(dice, damaged(&same)),
        _ => same.bytes(),
    };
    let before = if dice.percent(6) {
        one_of(dice, damaged(&file))
    } else {
        file.bytes()
    };
    pair(&before, &after, bodies.asked)
}
