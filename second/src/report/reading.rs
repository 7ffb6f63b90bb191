//! What is shown of a file: "A body that reads strictly is shown by its groups; the salvage list is
//! used only where it is refused".

use crate::body::read_body;
use crate::edition::Edition;
use crate::entry::entry;
use crate::group::{group_at, Group};
use crate::refusal::Refusal;
use crate::report::reason::Reason;
use crate::report::told::{self, Told};
use crate::salvage::{entries, LOOSE, SOUND};
use crate::sdec::names;
use crate::style::{find, Found};

/// An entry of a body: a group, a piece that is no group, or loose bytes.
pub enum Kind<'a> {
    Sound(Group<'a>),
    Damaged(Refusal, Told),
    Loose(Refusal, Told),
}

/// An entry with its place in the body; places inside it count from its own start.
pub struct Shown<'a> {
    pub place: usize,
    pub length: usize,
    pub kind: Kind<'a>,
}

/// The body of a file, its entries, and its refusal where it is not read strictly.
pub struct Body<'a> {
    pub found: Found,
    pub entries: Vec<Shown<'a>>,
    pub refused: Option<(Refusal, Told)>,
}

/// The body of a file, or why it is not found.
pub fn read(file: &[u8]) -> Result<Body<'_>, (Refusal, Told)> {
    let found = find(file).map_err(|refusal| (refusal, told::of_file(file, refusal)))?;
    let body = found.body(file);
    let (entries, refused) = match read_body(body) {
        Ok(groups) => (groups.into_iter().map(of_group).collect(), None),
        Err(refusal) => {
            let entries = salvaged(body);
            let told = of_body(body, refusal, &entries);
            (entries, Some((refusal, told)))
        }
    };
    Ok(Body {
        found,
        entries,
        refused,
    })
}

fn of_group(group: Group) -> Shown {
    Shown {
        place: group.place,
        length: group.length,
        kind: Kind::Sound(group),
    }
}

fn salvaged(body: &[u8]) -> Vec<Shown<'_>> {
    let shown = |one: crate::salvage::Entry| Shown {
        place: one.place,
        length: one.length,
        kind: kind(body, one),
    };
    entries(body).into_iter().map(shown).collect()
}

/// What an entry is, by its bytes alone.
fn kind(body: &[u8], one: crate::salvage::Entry) -> Kind<'_> {
    let end = one.place + one.length;
    let piece = &body[one.place..end];
    let refusal = match (one.kind, group_at(piece, 0), entry(piece)) {
        (SOUND, Ok(group), _) => return Kind::Sound(group),
        (_, _, Err(refusal)) => refusal,
        _ => Refusal {
            number: LOOSE,
            place: 0,
        },
    };
    if !piece.starts_with(&crate::bytes::CSEG) {
        return Kind::Loose(refusal, told::loose());
    }
    let too_long = match end == body.len() {
        true => Reason::GroupPastBody,
        false => Reason::GroupPastNext,
    };
    Kind::Damaged(refusal, told::of_groups(piece, refusal, too_long))
}

/// "Where both stand at one place with one number, the entry's sentence is used for both".
fn of_body(body: &[u8], refusal: Refusal, entries: &[Shown]) -> Told {
    let of_entry = entries.iter().find_map(|shown| match &shown.kind {
        Kind::Damaged(own, told) | Kind::Loose(own, told)
            if own.number == refusal.number && shown.place + own.place == refusal.place =>
        {
            Some(told.clone())
        }
        _ => None,
    });
    of_entry.unwrap_or_else(|| told::of_groups(body, refusal, Reason::GroupPastBody))
}

impl<'a> Body<'a> {
    pub fn groups(&self) -> impl Iterator<Item = &Group<'a>> {
        self.entries.iter().filter_map(|shown| match &shown.kind {
            Kind::Sound(group) => Some(group),
            _ => None,
        })
    }

    /// The editions that stand among its groups.
    pub fn editions(&self) -> Vec<Edition> {
        let has = |edition: &Edition| self.groups().any(|group| group.edition() == Some(*edition));
        let both = [Edition::First, Edition::Second];
        both.into_iter().filter(has).collect()
    }

    pub fn parts(&self) -> usize {
        self.groups().map(|group| names(group.text).count()).sum()
    }

    pub fn channels(&self) -> usize {
        self.groups().map(|group| group.records.len()).sum()
    }
}
