//! Why a call is refused.

/// The reasons for a refusal, in the order in which they are checked; but 16 comes
/// after 3.
#[derive(Clone, Copy, PartialEq, Eq, PartialOrd, Ord, Hash, Debug)]
#[repr(u8)]
pub enum Refusal {
    /// The state breaks a rule.
    BrokenState = 1,
    /// A lent buffer has a length outside the limits, or not that of the start.
    WrongLength = 2,
    /// What the call must read is malformed.
    Malformed = 3,
    /// An identifier is empty or too long.
    BadIdentifier = 4,
    /// The call does not go with the open window, or with there being none.
    WrongWindow = 5,
    /// All window numbers, or all events of the window, are used up.
    UsedUp = 6,
    /// The window to be removed is not a live closed one.
    NotLive = 7,
    /// The register has no place for a new identifier.
    FullRegister = 8,
    /// The open window has no place for another identifier.
    FullWindow = 9,
    /// Level 0 has no place for another partition.
    FullLevel = 10,
    /// Another partition would leave a later merge too little of the card.
    FullCard = 11,
    /// Fewer blocks are free than must be taken.
    NoFreeBlocks = 12,
    /// A step finds nothing to merge.
    NothingDue = 13,
    /// A query has too few, too many or equal identifiers, or a list of a wrong length.
    BadQuery = 14,
    /// The identifier counts in no closed window.
    Uncounted = 15,
    /// A list of windows is empty, too long, or names one twice.
    BadList = 16,
    /// A stretch of windows has its first above its last.
    BadStretch = 17,
}

impl Refusal {
    /// The number by which the refusal is known.
    pub fn number(self) -> u8 {
        self as u8
    }
}
