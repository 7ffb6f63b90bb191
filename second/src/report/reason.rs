//! The sentence of each refusal; a number that has several is told apart by its case.

#[derive(Clone, Copy, Debug, PartialEq, Eq, PartialOrd, Ord)]
pub enum Reason {
    NotAStyle,
    CutShort,
    SectionPast,
    GroupPastNext,
    GroupPastBody,
    ChunkPast,
    BodyTooLarge,
    SecondSection,
    NoCasm,
    TagNotHere,
    EmptyGroup,
    Loose,
    OwnLength,
    PartNames,
    ByteOut,
    SecondChunk,
    NoChannel,
    TooManyGroups,
    PartAgain,
    OtherEdition,
}

/// Every reason with its number and its sentence.
pub const REASONS: [(Reason, u8, &str); 20] = [
    (
        Reason::NotAStyle,
        1,
        "not a style file: it does not begin with MThd, six bytes and a whole MTrk",
    ),
    (
        Reason::CutShort,
        2,
        "cut short: fewer than 8 bytes are left for a tag and a length",
    ),
    (
        Reason::SectionPast,
        2,
        "the section's length runs past the end of the file",
    ),
    (
        Reason::GroupPastNext,
        2,
        "the group's length runs past the next CSEG",
    ),
    (
        Reason::GroupPastBody,
        2,
        "the group's length runs past the end of the body",
    ),
    (
        Reason::ChunkPast,
        2,
        "the chunk's length runs past the end of its group",
    ),
    (
        Reason::BodyTooLarge,
        3,
        "the CASM body is larger than 32,768 bytes",
    ),
    (Reason::SecondSection, 4, "a second section with this tag"),
    (Reason::NoCasm, 5, "no CASM section"),
    (
        Reason::TagNotHere,
        6,
        "a chunk with this tag may not stand here",
    ),
    (Reason::EmptyGroup, 6, "a group with nothing in it"),
    (Reason::Loose, 6, "bytes that belong to no group"),
    (
        Reason::OwnLength,
        7,
        "the chunk's length is not the one its tag asks for",
    ),
    (
        Reason::PartNames,
        8,
        "the list of part names breaks a rule (1-255 bytes of 20H-7EH; names of 1-16 bytes, \
         none twice)",
    ),
    (Reason::ByteOut, 9, "a byte is out of its range"),
    (
        Reason::SecondChunk,
        10,
        "a second chunk of this kind for the same source channel",
    ),
    (
        Reason::NoChannel,
        11,
        "a second table (Cntt) for a channel that the group does not have",
    ),
    (Reason::TooManyGroups, 12, "more than 32 groups"),
    (
        Reason::PartAgain,
        13,
        "a part name that an earlier group has already",
    ),
    (
        Reason::OtherEdition,
        21,
        "a group of another edition than the groups before it",
    ),
];

impl Reason {
    fn row(self) -> &'static (Reason, u8, &'static str) {
        &REASONS[self as usize]
    }

    pub fn number(self) -> u8 {
        self.row().1
    }

    pub fn sentence(self) -> &'static str {
        self.row().2
    }
}
