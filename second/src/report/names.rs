//! Bytes, numbers and notes as people read them.

use crate::report::words::ROOTS;

/// "20H-7EH as they are, else `\xNN`".
pub fn name(bytes: &[u8]) -> String {
    let one = |&byte: &u8| match byte {
        0x20..=0x7E => char::from(byte).to_string(),
        _ => format!("\\x{byte:02x}"),
    };
    bytes.iter().map(one).collect()
}

/// Two digits a byte.
pub fn hex(bytes: &[u8]) -> String {
    bytes.iter().map(|byte| format!("{byte:02x}")).collect()
}

/// A count and its unit: "counts with their unit have commas".
pub fn count(number: u64, one: &str, many: &str) -> String {
    let unit = if number == 1 { one } else { many };
    format!("{} {unit}", with_commas(number))
}

fn with_commas(number: u64) -> String {
    let digits = number.to_string();
    let mut text = String::new();
    for (place, digit) in digits.chars().enumerate() {
        if place > 0 && (digits.len() - place).is_multiple_of(3) {
            text.push(',');
        }
        text.push(digit);
    }
    text
}

/// "C3 = 60, so 0-127 is C-2-G8".
pub fn note(number: u8) -> String {
    let octave = i32::from(number / 12) - 2;
    format!("{}{octave}", ROOTS[usize::from(number % 12)])
}

/// Two notes as they stand, crossed ones too.
pub fn notes(low: u8, high: u8) -> String {
    format!("{}-{} ({low}-{high})", note(low), note(high))
}
