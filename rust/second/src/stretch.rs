//! Stretches of windows, which queries are asked over.

use crate::state::Partition;

/// The windows from a first to a last one. None are meant where the first exceeds the last, and a query
/// over that is refused.
#[derive(Clone, Copy, PartialEq, Eq, Debug)]
pub struct Stretch {
    /// The first window.
    pub first: u16,
    /// The last window.
    pub last: u16,
}

impl Stretch {
    /// All windows there can be.
    pub const ALL: Stretch = Stretch {
        first: 1,
        last: u16::MAX,
    };

    /// Whether a window is inside.
    pub fn has(self, window: u16) -> bool {
        (self.first..=self.last).contains(&window)
    }

    /// Whether a query passes a partition over, since no window of it can be inside.
    pub fn passes_over(self, partition: &Partition) -> bool {
        partition.highest < self.first || partition.lowest > self.last
    }
}
