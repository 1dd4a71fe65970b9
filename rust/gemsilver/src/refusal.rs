//! Why a call is refused.

use core::fmt;

/// Why a call is refused, in the order in which it is tested; but a list of windows, 16, is tested after 3.
///
/// ```
/// use gemsilver::Refusal;
///
/// assert_eq!(Refusal::NotLive.number(), 7);
/// assert_eq!(Refusal::NotLive.to_string(), "no such live window");
/// assert_eq!(Refusal::of_number(7), Some(Refusal::NotLive));
/// ```
#[derive(Clone, Copy, PartialEq, Eq, PartialOrd, Ord, Hash, Debug)]
#[repr(u8)]
pub enum Refusal {
    /// The image is none, or its state breaks a rule.
    BrokenState = 1,
    /// A buffer's length is out of the limits or not the one given at the start.
    WrongLength = 2,
    /// What the call must read is malformed.
    Malformed = 3,
    /// An identifier is empty or longer than 64 bytes.
    BadIdentifier = 4,
    /// No window is open, one is, or the open one is named.
    OutOfTurn = 5,
    /// All window numbers are given, or the window has 32,767 events.
    Exhausted = 6,
    /// No such live window.
    NotLive = 7,
    /// A new identifier finds the register full.
    RegisterFull = 8,
    /// A 65th identifier in one window.
    WindowFull = 9,
    /// 16 partitions stand at level 0: merge steps make room.
    LevelFull = 10,
    /// Finished partitions would take more than half of the card.
    HalfFull = 11,
    /// Too few blocks are free.
    TooFewFree = 12,
    /// No merge is in progress and none is due.
    NothingDue = 13,
    /// No identifiers, more than 5 or one twice, or a list of no places or more than 32.
    BadQuery = 14,
    /// The identifier counts in no closed window.
    Uncounted = 15,
    /// A list of windows is empty, has more than 32, or names one twice.
    BadList = 16,
    /// A stretch whose first window exceeds its last.
    BadStretch = 17,
}

impl Refusal {
    /// All of them, by number.
    pub const ALL: [Refusal; 17] = [
        Refusal::BrokenState,
        Refusal::WrongLength,
        Refusal::Malformed,
        Refusal::BadIdentifier,
        Refusal::OutOfTurn,
        Refusal::Exhausted,
        Refusal::NotLive,
        Refusal::RegisterFull,
        Refusal::WindowFull,
        Refusal::LevelFull,
        Refusal::HalfFull,
        Refusal::TooFewFree,
        Refusal::NothingDue,
        Refusal::BadQuery,
        Refusal::Uncounted,
        Refusal::BadList,
        Refusal::BadStretch,
    ];

    /// The number by which the refusal is known.
    pub fn number(self) -> u32 {
        self as u32
    }

    /// The refusal of a number; `None` of any other number.
    pub fn of_number(number: u32) -> Option<Refusal> {
        Refusal::ALL
            .into_iter()
            .find(|refusal| refusal.number() == number)
    }

    /// A sentence for people.
    pub fn sentence(self) -> &'static str {
        match self {
            Refusal::BrokenState => "the image is none, or its state breaks a rule",
            Refusal::WrongLength => {
                "a buffer's length is out of the limits or not the one given at the start"
            }
            Refusal::Malformed => "what the call must read is malformed",
            Refusal::BadIdentifier => "an identifier is empty or longer than 64 bytes",
            Refusal::OutOfTurn => "no window is open, one is, or the open one is named",
            Refusal::Exhausted => "all window numbers are given, or the window has 32,767 events",
            Refusal::NotLive => "no such live window",
            Refusal::RegisterFull => "a new identifier finds the register full",
            Refusal::WindowFull => "a 65th identifier in one window",
            Refusal::LevelFull => "16 partitions stand at level 0: take merge steps",
            Refusal::HalfFull => "finished partitions would take more than half of the card",
            Refusal::TooFewFree => "too few blocks are free",
            Refusal::NothingDue => "no merge is in progress and none is due",
            Refusal::BadQuery => {
                "no identifiers, more than 5 or one twice, or a list of no places or more than 32"
            }
            Refusal::Uncounted => "the identifier counts in no closed window",
            Refusal::BadList => "a list of windows is empty, has more than 32, or names one twice",
            Refusal::BadStretch => "a stretch whose first window exceeds its last",
        }
    }
}

impl fmt::Display for Refusal {
    fn fmt(&self, out: &mut fmt::Formatter<'_>) -> fmt::Result {
        out.write_str(self.sentence())
    }
}

impl core::error::Error for Refusal {}
