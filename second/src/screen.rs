//! The editing screen: "sets one field byte of it per key press: byte index 0-25 and a value,
//! all other fields kept", the Cntt and its position too; document 02, §4: "the screen's index
//! runs 0-46". Order: "Screen: 16, then 9 for the set value alone", with 22 between them (document
//! 02, §6: "on the screen after 16 and before 9").

use crate::ranges::may_stand;
use crate::record::{is_locked, Record, READ_ONLY};
use crate::refusal::{refuse, Answer};

/// Sets one field byte of a record; "a table judged by the rule the record then has". The screen
/// doesn't ask to override, "except that setting byte index 10 itself is never refused with 22".
pub fn set_field(record: &mut Record, index: u32, value: u8) -> Answer<()> {
    let index = index as usize;
    let edition = record.edition();
    if index >= edition.fields() {
        return refuse(16, 0);
    }
    if is_locked(record.bytes()) && index != READ_ONLY {
        return refuse(22, READ_ONLY);
    }
    if !may_stand(edition, record.bytes(), index, value) {
        return refuse(9, index);
    }
    record[index] = value;
    Ok(())
}
