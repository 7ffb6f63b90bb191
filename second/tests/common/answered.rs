//! The lines of a generated script with their answers.

use second::calls::answer;
use second::gen::Script;
use second::script::tokens;

/// The tokens of the lines of a verb that keep the grammar, each with its answer.
pub fn answered(verb: &'static str, seed: u64, count: usize) -> Vec<(Vec<Vec<u8>>, Vec<String>)> {
    let mut list = Vec::new();
    for line in Script::new(seed, &[verb]).take(count) {
        let words: Vec<String> = answer(&line).split(' ').map(str::to_string).collect();
        if words[0] != "bad" {
            let parts = tokens(&line).unwrap();
            list.push((parts.iter().map(|part| part.to_vec()).collect(), words));
        }
    }
    list
}
