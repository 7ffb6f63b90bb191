//! The voice name: "shown as the caller's own bytes with trailing 20H bytes left off; eight
//! spaces show as empty. It is asked for by body, group number and source channel."

use crate::lookup::find_channel;
use crate::refusal::Answer;

const NAME_PLACE: usize = 1;
const NAME_BYTES: usize = 8;
const SPACE: u8 = 0x20;

/// The voice name of a source channel in a group of a body.
pub fn voice_name(body: &[u8], group: u32, channel: u8) -> Answer<&[u8]> {
    let (_, place) = find_channel(body, group, channel)?;
    let start = place + NAME_PLACE;
    let mut end = start + NAME_BYTES;
    while end > start && body[end - 1] == SPACE {
        end -= 1;
    }
    Ok(&body[start..end])
}
