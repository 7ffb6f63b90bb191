//! A refusal: its number and its place, counted from the start of the lent bytes.
//! Follows document 01, "Numbers of refusal".

#[derive(Clone, Copy, Debug, PartialEq, Eq, PartialOrd, Ord, Hash)]
pub struct Refusal {
    pub number: u8,
    pub place: usize,
}

/// What a call answers: its result, or a refusal.
pub type Answer<T> = Result<T, Refusal>;

/// The refusal of this number at this place.
pub fn refuse<T>(number: u8, place: usize) -> Answer<T> {
    Err(Refusal { number, place })
}
