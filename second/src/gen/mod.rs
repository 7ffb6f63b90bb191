//! The generator of scripts: first the catalogue, the verbs in turn, then the systematic
//! families, then a random mixture without end; all from one seed.

pub mod asks;
pub mod bodies;
pub mod broken;
pub mod checks;
pub mod chords;
pub mod cntts;
pub mod ctb2;
pub mod ctb2_bodies;
pub mod ctb2_faults;
pub mod ctb2_lines;
pub mod ctb2_place;
pub mod dice;
pub mod draft;
pub mod edits;
pub mod entries;
pub mod families;
pub mod faults;
pub mod file_checks;
pub mod file_drafts;
pub mod file_edits;
pub mod files;
pub mod locks;
pub mod lookups;
pub mod mixture;
pub mod narrow;
pub mod positions;
pub mod records;
pub mod sections;
pub mod sites;
pub mod sound;
pub mod spell;
pub mod styles;
pub mod tool_broken;
pub mod tool_files;
pub mod tool_sound;

use crate::calls::{answer, ONLY_NAMED, VERBS};
use crate::record::is_locked;
use dice::Dice;
use mixture::Mixture;
use spell::{body_line, Line};
use std::collections::BTreeMap;
use std::io::{self, Write};

/// Lines sampled from the families for the verbs that do not go through them whole, and from those
/// of the second edition for all verbs.
const SAMPLED: usize = 200;
const CTB2_SAMPLED: usize = 90;

/// The lines of a script, without end.
pub struct Script {
    verbs: Vec<&'static str>,
    ready: std::vec::IntoIter<Line>,
    mixture: Mixture,
}

impl Script {
    /// The script of a seed, of these verbs only, or where none is named of all but those that have
    /// to be.
    pub fn new(seed: u64, named: &[&str]) -> Script {
        let all = named.is_empty();
        let verbs: Vec<&'static str> = VERBS
            .into_iter()
            .filter(|verb| all || named.contains(verb))
            .chain(ONLY_NAMED.into_iter().filter(|verb| named.contains(verb)))
            .collect();
        let mut dice = Dice::new(seed);
        let mut catalogues = catalogues(&mut dice);
        let only_named = ONLY_NAMED.into_iter();
        for verb in only_named.filter(|verb| verbs.contains(verb)) {
            let mut aside = dice.aside();
            let lines = match verb {
                "checked" => checks::checked(&mut aside),
                "checkedfile" => file_checks::checkedfile(&mut aside),
                "section" => sections::section(&mut aside),
                "entry" => entries::entry(&mut aside),
                "editfile" => file_edits::editfile(&mut aside),
                _ => sites::site(&mut aside),
            };
            catalogues.push((verb, mixed(lines, broken::broken(verb))));
        }
        let mut families = families(&mut dice);
        let keep = |lists: &mut Vec<(&'static str, Vec<Line>)>| -> Vec<Vec<Line>> {
            lists.retain(|(verb, _)| verbs.contains(verb));
            lists.drain(..).map(|(_, lines)| lines).collect()
        };
        let mut first = keep(&mut catalogues);
        if all {
            first.push(broken::verbless());
        }
        let mut ready = in_turn(first);
        ready.extend(in_turn(keep(&mut families)));
        Script {
            verbs,
            ready: ready.into_iter(),
            mixture: Mixture::new(dice),
        }
    }

    /// How many lines of catalogue and families come before the mixture.
    pub fn before_mixture(&self) -> usize {
        self.ready.len()
    }
}

impl Iterator for Script {
    type Item = Line;

    fn next(&mut self) -> Option<Line> {
        let ready = self.ready.next();
        Some(ready.unwrap_or_else(|| self.mixture.line(&self.verbs)))
    }
}

/// The catalogue of every verb; its broken lines come after its first few.
fn catalogues(dice: &mut Dice) -> Vec<(&'static str, Vec<Line>)> {
    let bodies = bodies::bodies(dice);
    VERBS
        .into_iter()
        .map(|verb| {
            let lines = match verb {
                "find" => files::find(),
                "body" => asks::body(dice, &bodies),
                "group" => asks::group(dice, &bodies),
                "voice" => asks::voice(dice, &bodies),
                "plays" => chords::plays(dice, &bodies),
                "place" => records::place(dice),
                "write" => records::write(dice),
                "edit" => edits::edit(dice, &bodies),
                "screen" => records::screen(dice),
                "part" => lookups::part(dice, &bodies),
                "where" => lookups::place_of_group(dice, &bodies),
                "channel" => lookups::channel(dice, &bodies),
                _ => asks::salvage(dice, &bodies),
            };
            (verb, mixed(lines, broken::broken(verb)))
        })
        .collect()
}

/// Some of the second list after every five of the first, so that both begin early.
fn mixed(first: Vec<Line>, second: Vec<Line>) -> Vec<Line> {
    let mut lines = Vec::with_capacity(first.len() + second.len());
    let mut second = second.into_iter();
    for (number, line) in first.into_iter().enumerate() {
        lines.push(line);
        if number % 5 == 4 {
            lines.extend(second.next());
        }
    }
    lines.extend(second);
    lines
}

/// The systematic families: whole for find, body and salvage, sampled for the others; sampled for
/// all on a body of the second edition.
fn families(dice: &mut Dice) -> Vec<(&'static str, Vec<Line>)> {
    let body = families::family_body(dice);
    let changed = families::family(dice, &body);
    let file = families::family_file(dice);
    let files = families::family(dice, &file);
    let lines = |verb: &str, bodies: &[Vec<u8>], tokens: &str| -> Vec<Line> {
        bodies
            .iter()
            .map(|body| body_line(verb, body, tokens))
            .collect()
    };
    let mut find = lines("find", &files, "");
    find.extend(broken::long_lines());
    let mut list = vec![
        ("find", find),
        ("body", lines("body", &changed, "")),
        ("salvage", lines("salvage", &changed, "12")),
    ];
    for (verb, tokens) in questions(&body) {
        let sampled = families::sample_of(dice, &changed, SAMPLED);
        list.push((verb, lines(verb, &sampled, &tokens)));
    }
    let second = families::ctb2_family_body(dice);
    let changed = families::family(dice, &second);
    let mut asked = vec![("body", String::new()), ("salvage", "12".to_string())];
    asked.extend(questions(&second));
    for (verb, tokens) in asked {
        let sampled = families::sample_of(dice, &changed, CTB2_SAMPLED);
        list.push((verb, lines(verb, &sampled, &tokens)));
    }
    list
}

/// Questions that the unchanged family body accepts; its edit asks to override a lock only, so
/// that a change which locks the record is told.
fn questions(body: &[u8]) -> Vec<(&'static str, String)> {
    let groups = crate::body::read_body(body).unwrap_or_default();
    let number = groups.iter().position(|group| !group.records.is_empty());
    let number = number.unwrap_or(0);
    let record = groups[number].records[0].record;
    let channel = record.source_channel();
    let part = spell::spell(groups[number].text);
    let new = spell::rec(&ctb2_bodies::plain(record.edition(), channel));
    let over = u8::from(is_locked(record.bytes()));
    vec![
        ("group", format!("{number} 2")),
        ("voice", format!("{number} {channel}")),
        ("plays", format!("{part} 4 19")),
        ("edit", format!("{number} {channel} {new} {over}")),
        ("part", part),
        ("where", number.to_string()),
        ("channel", format!("{number} {channel}")),
    ]
}

/// The first of all lists, then the second of each, and so on.
fn in_turn<T>(lists: Vec<Vec<T>>) -> Vec<T> {
    let mut lists: Vec<std::vec::IntoIter<T>> = lists.into_iter().map(Vec::into_iter).collect();
    let mut all = Vec::new();
    while !lists.is_empty() {
        lists.retain_mut(|list| match list.next() {
            Some(next) => {
                all.push(next);
                true
            }
            None => false,
        });
    }
    all
}

/// What a line was answered, for the table.
#[derive(Clone, Copy, Debug, PartialEq, Eq, PartialOrd, Ord)]
pub enum Outcome {
    Ok,
    Refused(u8),
    Bad,
}

impl Outcome {
    /// The outcome that an answer line shows.
    pub fn of(answer: &str) -> Outcome {
        let mut words = answer.split(' ');
        match words.next() {
            Some("ok") => Outcome::Ok,
            Some("refused") => {
                Outcome::Refused(words.next().and_then(|n| n.parse().ok()).unwrap_or(0))
            }
            _ => Outcome::Bad,
        }
    }
}

impl std::fmt::Display for Outcome {
    fn fmt(&self, out: &mut std::fmt::Formatter) -> std::fmt::Result {
        match self {
            Outcome::Ok => out.write_str("ok"),
            Outcome::Refused(number) => write!(out, "{number}"),
            Outcome::Bad => out.write_str("bad"),
        }
    }
}

/// The verb of a line, or `none`.
pub fn verb_of(line: &[u8]) -> &'static str {
    let first = line.split(|&byte| byte == b' ' || byte == b'\t').next();
    let word = first.unwrap_or(line);
    VERBS
        .into_iter()
        .chain(ONLY_NAMED)
        .find(|verb| verb.as_bytes() == word)
        .unwrap_or("none")
}

pub type Table = BTreeMap<(&'static str, Outcome), u64>;

/// Prints so many lines of a script and answers how often each verb had each outcome.
pub fn generate(seed: u64, count: u64, named: &[&str], mut out: impl Write) -> io::Result<Table> {
    let mut table = Table::new();
    let mut script = Script::new(seed, named);
    for _ in 0..count {
        let line = script.next().unwrap_or_default();
        out.write_all(&line)?;
        out.write_all(b"\n")?;
        let outcome = Outcome::of(&answer(&line));
        *table.entry((verb_of(&line), outcome)).or_insert(0) += 1;
    }
    out.flush()?;
    Ok(table)
}
