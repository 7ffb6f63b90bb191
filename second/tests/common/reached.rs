//! The kinds of lines that a script reaches.

use std::collections::{BTreeMap, BTreeSet};

/// The kinds that hold.
pub fn holding<const COUNT: usize>(kinds: [(&str, bool); COUNT]) -> Vec<String> {
    let holding = kinds.into_iter().filter(|(_, is)| *is);
    holding.map(|(kind, _)| kind.to_string()).collect()
}

/// How often each kind is met.
pub fn counted(kinds: impl Iterator<Item = String>) -> BTreeMap<String, usize> {
    let mut counts = BTreeMap::new();
    for kind in kinds {
        *counts.entry(kind).or_insert(0) += 1;
    }
    counts
}

/// Each kind wanted is met so often at least.
pub fn assert_reached(kinds: impl Iterator<Item = String>, wanted: BTreeSet<String>, least: usize) {
    let counts = counted(kinds);
    let few = |kind: &String| counts.get(kind).copied().unwrap_or(0) < least;
    let missing: Vec<String> = wanted.into_iter().filter(few).collect();
    assert!(missing.is_empty(), "{missing:?} of {counts:?}");
}
