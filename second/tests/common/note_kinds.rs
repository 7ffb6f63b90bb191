//! Kinds of limits that a `place` line asks about, told from its record, its chord and the answer
//! alone, without the library's placing.

use second::record::Record;
use second::script::{number, record};

/// A `place` line: its value, its limits and by what it is bypass.
pub struct Asked {
    pub value: i32,
    pub low: i32,
    pub high: i32,
    bypass: Option<String>,
}

impl Asked {
    pub fn of(words: &[&[u8]]) -> Asked {
        let given = record(words[1]).unwrap();
        let root = number(words[2]).unwrap() as i32;
        let note = number(words[3]).unwrap() as i32;
        let set = set_of(&given, note);
        let field = |index: usize| i32::from(given[index]);
        let bypass = bypass(&given, set);
        let above = if root > field(set + 2) { 12 } else { 0 };
        let shift = root - field(18) - above;
        Asked {
            value: if bypass.is_some() { note } else { note + shift },
            low: field(set + 3),
            high: field(set + 4),
            bypass,
        }
    }

    /// How many keys the limits have, one to twelve.
    pub fn narrow_keys(&self) -> Option<usize> {
        let keys = self.high - self.low + 1;
        (1..=12).contains(&keys).then_some(keys as usize)
    }

    /// Whether a note is an octave of the value.
    fn octave(&self, note: i32) -> bool {
        (note - self.value) % 12 == 0
    }

    /// Whether both limits are in their range.
    fn sound_limits(&self) -> bool {
        self.low <= 127 && self.high <= 127
    }

    /// Whether some octave of the value lies within both limits.
    fn within(&self) -> bool {
        (self.low..=self.high).any(|note| self.octave(note))
    }
}

/// Where the set of a note begins.
pub fn set_of(given: &Record, note: i32) -> usize {
    match given {
        Record::First(_) => 20,
        Record::Second(bytes) => match note {
            _ if note < i32::from(bytes[20]) => 22,
            _ if note > i32::from(bytes[21]) => 34,
            _ => 28,
        },
    }
}

/// By what a record's set is bypass, and under which rule.
fn bypass(given: &Record, set: usize) -> Option<String> {
    let by = match (given, given.second_table()) {
        (Record::First(_), None) if given[set + 1] == 0 => "table 00",
        (Record::First(_), Some(0x80)) => "Cntt 80",
        (Record::Second(_), _) if given[set + 1] == 0 => "a set's table 00",
        (Record::Second(_), _) if given[set + 1] == 0x80 => "a set's table 80",
        _ => return None,
    };
    Some(format!("bypass by {by}, rule {}", given[set]))
}

/// The kinds that do not speak of the nearest octave alone.
pub const OF_ALL: [&str; 6] = [
    "wide, within",
    "16, no octave within",
    "9, no octave within",
    "17, no octave within",
    "value below 0, within",
    "value above 127, within",
];

/// The kinds of answers where no octave lies within both limits.
pub const OF_NEAREST: [&str; 29] = [
    "below both limits",
    "above both limits",
    "between crossed limits",
    "at the low limit",
    "crossed, value below",
    "crossed, value between",
    "crossed, value above",
    "value below 0",
    "value above 127",
    "low limit 0",
    "low limit 127",
    "high limit 0",
    "high limit 127",
    "six keys up and six down",
    "six keys down is below 0",
    "six keys up is above 127",
    "the nearer is below 0",
    "the nearer is above 127",
    "another is nearer to the high limit",
    "the value itself is within 0 to 127",
    "the value itself is the answer",
    "bypass by table 00, rule 0",
    "bypass by table 00, rule 1",
    "bypass by Cntt 80, rule 0",
    "bypass by Cntt 80, rule 1",
    "bypass by a set's table 00, rule 0",
    "bypass by a set's table 00, rule 1",
    "bypass by a set's table 80, rule 0",
    "bypass by a set's table 80, rule 1",
];

/// The kinds of a line that is not bad.
pub fn note_kinds(asked: &Asked, told: &str) -> Vec<String> {
    let words: Vec<&str> = told.split(' ').collect();
    let within = asked.within();
    match (words[0], within) {
        ("refused", false) if asked.sound_limits() => {
            vec![format!("{}, no octave within", words[1])]
        }
        ("refused", _) => Vec::new(),
        (_, true) => within_kinds(asked),
        _ => {
            let kinds = nearest_kinds(asked, words[1].parse().unwrap());
            let mut kinds: Vec<String> = kinds.iter().map(|k| format!("nearest, {k}")).collect();
            kinds.extend(
                asked
                    .narrow_keys()
                    .map(|keys| format!("{keys} keys, nearest")),
            );
            kinds
        }
    }
}

fn within_kinds(asked: &Asked) -> Vec<String> {
    let width = match asked.narrow_keys() {
        Some(keys) => format!("{keys} keys"),
        None => "wide".to_string(),
    };
    let mut kinds = vec![format!("{width}, within")];
    if asked.value < 0 {
        kinds.push("value below 0, within".to_string());
    }
    if asked.value > 127 {
        kinds.push("value above 127, within".to_string());
    }
    kinds
}

/// Which of the kinds of the nearest octave an answer is.
fn nearest_kinds(asked: &Asked, note: i32) -> Vec<String> {
    let &Asked {
        value, low, high, ..
    } = asked;
    let crossed = low > high;
    let far = |other: i32| (other - high).abs();
    let nearer_to_high = (0..=127).any(|other| asked.octave(other) && far(other) < far(note));
    let holds = [
        note < low && note < high,
        note > low && note > high,
        high < note && note < low,
        note == low,
        crossed && value <= high,
        crossed && high < value && value < low,
        crossed && value >= low,
        value < 0,
        value > 127,
        low == 0,
        low == 127,
        high == 0,
        high == 127,
        note == low - 6 && note + 12 <= 127,
        note == low + 6,
        note == low - 6 && note + 12 > 127,
        note - low > 6,
        low - note > 6,
        nearer_to_high,
        (0..=127).contains(&value) && value != note,
        value == note,
    ];
    let named = OF_NEAREST.iter().zip(holds).filter(|(_, holds)| *holds);
    let mut kinds: Vec<String> = named.map(|(kind, _)| kind.to_string()).collect();
    kinds.extend(asked.bypass.clone());
    kinds
}
