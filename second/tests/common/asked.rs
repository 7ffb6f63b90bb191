//! The lines of `section`, `entry` and `site` in one script, with their answers.

use second::calls::answer;
use second::gen::{verb_of, Script};
use second::script::{bytes, number, tokens};

pub const ASKING: [&str; 3] = ["section", "entry", "site"];

/// A line that keeps the grammar: its bytes, its place (0 for an entry) and its answer.
pub struct Asked {
    pub verb: &'static str,
    pub bytes: Vec<u8>,
    pub place: usize,
    pub told: String,
}

impl Asked {
    /// The words of the answer behind its first, as numbers.
    pub fn numbers(&self) -> Vec<usize> {
        let words = self.told.split(' ').skip(1);
        words.map(|word| word.parse().unwrap()).collect()
    }

    pub fn is_ok(&self) -> bool {
        self.told.starts_with("ok")
    }

    /// The four bytes at a place as a length; those that are not there count as 00.
    pub fn length_at(&self, place: usize) -> usize {
        (place..place + 4).fold(0, |sum, place| {
            sum * 256 + usize::from(self.bytes.get(place).copied().unwrap_or(0))
        })
    }
}

/// The lines of a script of these verbs.
pub fn asked(verbs: &[&str], seed: u64, count: usize) -> Vec<Asked> {
    let mut list = Vec::new();
    for line in Script::new(seed, verbs).take(count) {
        let told = answer(&line);
        if told == "bad" {
            continue;
        }
        let parts = tokens(&line).unwrap();
        list.push(Asked {
            verb: verb_of(&line),
            bytes: bytes(parts[1]).unwrap(),
            place: parts.get(2).map_or(0, |part| number(part).unwrap()) as usize,
            told,
        });
    }
    list
}
