//! Style files for the tool for people, without end: first one for each sentence that it can say,
//! then sound ones of both editions and damaged ones of every kind in turn, all from one seed.

use crate::gen::bodies;
use crate::gen::dice::Dice;
use crate::gen::file_drafts;
use crate::gen::mixture::Mixture;
use crate::gen::{tool_broken, tool_sound};
use crate::style::BODY_LIMIT;

/// The files of a seed.
pub fn tool_files(seed: u64) -> impl Iterator<Item = Vec<u8>> {
    let mut dice = Dice::new(seed);
    let fixed = tool_broken::files(&mut dice);
    let mut source = Source {
        bodies: catalogue(&mut dice),
        mixture: Mixture::new(dice.aside()),
        dice,
    };
    let more = (0..).map(move |number| source.file(number));
    fixed.into_iter().chain(more)
}

/// The bodies that scripts ask about, which break each rule at each kind of place.
fn catalogue(dice: &mut Dice) -> Vec<Vec<u8>> {
    let all = bodies::bodies(dice);
    [
        all.faults,
        all.second,
        all.moved,
        all.further,
        all.editions,
        all.orders,
        all.meetings,
        all.limits,
        all.looks,
    ]
    .concat()
}

struct Source {
    dice: Dice,
    bodies: Vec<Vec<u8>>,
    mixture: Mixture,
}

impl Source {
    /// A file of the kind whose turn it is.
    fn file(&mut self, number: usize) -> Vec<u8> {
        let body = match number % 12 {
            0 | 6 => tool_sound::body(&mut self.dice),
            1 | 4 => self.bodies[self.dice.below(self.bodies.len())].clone(),
            2 => self.mixture.body(),
            3 => self.loosened(),
            5 => self.changed_body(),
            7 => self.mixture.salvaged_body(),
            8 => return self.damaged_file(),
            9 => return self.mixture.file(),
            10 => return self.changed_file(),
            _ => return self.truncated(),
        };
        tool_sound::style(&mut self.dice, &body).bytes()
    }

    /// Groups with loose bytes before, between and behind them.
    fn loosened(&mut self) -> Vec<u8> {
        let groups = tool_sound::groups(&mut self.dice, 4);
        let mut body = Vec::new();
        for group in groups {
            self.put_loose(&mut body);
            body.extend(group);
        }
        self.put_loose(&mut body);
        body.truncate(BODY_LIMIT);
        body
    }

    /// Some bytes that begin no group, or none.
    fn put_loose(&mut self, body: &mut Vec<u8>) {
        let length = match self.dice.below(8) {
            0..=2 => 0,
            3 | 4 => self.dice.between(1, 7),
            5 => self.dice.pick(&[8, 15, 16, 17, 32, 63, 64, 65]),
            _ => self.dice.between(8, 90),
        };
        let letters = self.dice.percent(40);
        body.extend((0..length).map(|_| match letters {
            true => self.dice.between(0x20, 0x7E) as u8,
            false => self.dice.byte(),
        }));
    }

    /// A sound body with one to four changes.
    fn changed_body(&mut self) -> Vec<u8> {
        let mut body = tool_sound::body(&mut self.dice);
        for _ in 0..self.dice.between(1, 4) {
            self.mixture.change(&mut body);
        }
        body
    }

    /// A file whose sections are changed anywhere.
    fn changed_file(&mut self) -> Vec<u8> {
        let body = tool_sound::groups(&mut self.dice, 2).concat();
        let mut file = tool_sound::style(&mut self.dice, &body).bytes();
        for _ in 0..self.dice.between(1, 3) {
            self.mixture.change(&mut file);
        }
        file
    }

    /// A file whose body cannot be found, by one cause.
    fn damaged_file(&mut self) -> Vec<u8> {
        let body = tool_sound::groups(&mut self.dice, 2).concat();
        let file = tool_sound::style(&mut self.dice, &body);
        let damaged = file_drafts::damaged(&file);
        damaged[self.dice.below(damaged.len())].clone()
    }

    /// A file that ends too early, or a body that does.
    fn truncated(&mut self) -> Vec<u8> {
        let mut body = tool_sound::body(&mut self.dice);
        if self.dice.percent(50) {
            body.truncate(self.dice.below(body.len() + 1));
            return tool_sound::style(&mut self.dice, &body).bytes();
        }
        let mut file = tool_sound::style(&mut self.dice, &body).bytes();
        file.truncate(self.dice.between(1, file.len()));
        file
    }
}
