//! An entry of a salvage list by its bytes alone. Follows "The salvage list": "For a piece that
//! begins with CSEG: if a group stands at its start by the group rules, the piece being its parent,
//! that group is an entry of kind 0"; bytes that begin otherwise are loose ones, kind 6. "Rules
//! across groups (12, 13) play no part", nor does document 02's 21.

use crate::bytes::CSEG;
use crate::group::group_at;
use crate::refusal::{refuse, Answer};
use crate::salvage::LOOSE;
use crate::style::BODY_LIMIT;

/// The size of the group at the start, its header included, whatever stands after it; or 3, then 6
/// for loose bytes, then the group's refusal.
pub fn entry(bytes: &[u8]) -> Answer<usize> {
    if bytes.len() > BODY_LIMIT {
        return refuse(3, 0);
    }
    if !bytes.starts_with(&CSEG) {
        return refuse(LOOSE, 0);
    }
    group_at(bytes, 0).map(|group| group.length)
}
