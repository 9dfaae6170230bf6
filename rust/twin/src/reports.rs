//! The reports of document 01 and of W1, in the order they are tested, and which of them each operation can give.

#[derive(Clone, Copy, Debug, PartialEq, Eq, PartialOrd, Ord)]
#[repr(u8)]
pub enum Report {
    Success,
    BadImage,
    BadUser,
    BadTime,
    ClockNotLater,
    NotManager,
    BadKey,
    BadCount,
    BadRoom,
    Damaged,
    NoSuchBlock,
    NotOwner,
    NoSpace,
    NoSeries,
    BadTag,
    SequenceTwice,
}

/// The ten operations, the walk's step and Format, each with the reports that the document's table lets it give.
/// Check has none.
pub const POSSIBLE: [(&str, &[u8]); 12] = [
    ("Create", &[0, 1, 2, 3, 4, 8, 9, 12]),
    ("Read", &[0, 1, 2, 8, 9, 10]),
    ("Status", &[0, 1, 2, 9, 10]),
    ("Destroy", &[0, 1, 2, 3, 4, 9, 10, 11]),
    ("Replace", &[0, 1, 2, 3, 4, 8, 9, 10, 11]),
    ("SetExpiry", &[0, 1, 2, 3, 4, 9, 10, 11]),
    ("GetIds", &[0, 1, 2, 6, 7, 8, 9]),
    ("GetCount", &[0, 1, 2, 9]),
    ("Scavenge", &[0, 1, 2, 3, 4, 5, 6, 9]),
    ("Profile", &[0, 1, 2, 5, 6, 8, 9]),
    ("Step", &[0, 1, 2, 6, 7, 8, 9]),
    ("Format", &[0, 1]),
];

/// The same for the opening of a reader, from W1.
pub const OF_OPENING: [u32; 7] = [0, 1, 2, 9, 13, 14, 15];
