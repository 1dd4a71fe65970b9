//! What is remembered between calls.
//!
//! The fields are open so that foreign and damaged states can be written down;
//! every call judges the state before it trusts it.

use crate::limits::{BUFFER, PARTITIONS, WINDOW_IDENTIFIERS};

/// The lengths of the lent buffers, in bytes.
#[derive(Clone, Copy, PartialEq, Eq, Default, Debug)]
pub struct Lengths {
    /// Of the card.
    pub card: u32,
    /// Of the register.
    pub register: u32,
}

/// The window numbers and the open window's event count.
#[derive(Clone, Copy, PartialEq, Eq, Default, Debug)]
pub struct Windows {
    /// The last number given.
    pub last: u16,
    /// N: how many closed windows are live.
    pub live: u16,
    /// The open window, or 0 for none.
    pub open: u16,
    /// The open window's events.
    pub events: u16,
}

/// The open window's identifiers, in order of first count.
#[derive(Clone, PartialEq, Eq, Debug)]
pub struct Listed {
    /// How many places are used.
    pub used: u16,
    /// The identifiers' numbers, zeros past the used places.
    pub ids: [u16; WINDOW_IDENTIFIERS],
}

/// A signed count of one identifier in one window.
#[derive(Clone, Copy, PartialEq, Eq, Default, Debug)]
pub struct Posting {
    /// The identifier's number.
    pub id: u16,
    /// The window.
    pub window: u16,
    /// The count, never 0; negative where a removal takes back.
    pub count: i16,
}

/// The postings not yet on the card, by identifier ascending, then window descending.
#[derive(Clone, PartialEq, Eq, Debug)]
pub struct Buffer {
    /// How many places are used.
    pub used: u16,
    /// The postings, zeros past the used places.
    pub postings: [Posting; BUFFER],
}

/// The record of a finished partition.
#[derive(Clone, Copy, PartialEq, Eq, Default, Debug)]
pub struct Partition {
    /// The first block.
    pub first: u16,
    /// The level.
    pub level: u16,
    /// The length in bytes of content.
    pub length: u32,
    /// The lowest window of its postings.
    pub lowest: u16,
    /// The highest window of its postings.
    pub highest: u16,
}

/// The finished partitions, oldest first.
#[derive(Clone, PartialEq, Eq, Debug)]
pub struct Partitions {
    /// How many places are used.
    pub used: u16,
    /// The records, zeros past the used places.
    pub records: [Partition; PARTITIONS],
}

/// The merge in progress; zeros for none.
#[derive(Clone, Copy, PartialEq, Eq, Default, Debug)]
pub struct MergeJob {
    /// The first output block.
    pub first: u16,
    /// The output's length in bytes of content.
    pub length: u32,
    /// Steps done.
    pub steps: u32,
}

/// Everything that is remembered between calls.
#[derive(Clone, PartialEq, Eq, Default, Debug)]
pub struct State {
    /// The lengths of the lent buffers.
    pub lengths: Lengths,
    /// The window numbers.
    pub windows: Windows,
    /// The open window's identifiers.
    pub listed: Listed,
    /// The postings not yet on the card.
    pub buffer: Buffer,
    /// The finished partitions.
    pub partitions: Partitions,
    /// The block last taken.
    pub taken: u16,
    /// The merge in progress.
    pub merge: MergeJob,
}

/// A window that a query found.
#[derive(Clone, Copy, PartialEq, Eq, Default, Debug)]
pub struct Hit {
    /// The window.
    pub window: u16,
    /// Its score, at most 306,000: five identifiers, of 240 times 255 each.
    pub score: u32,
}

/// The used places of an array; all of them if `used` is out of range.
fn used_places<T: Copy>(places: &[T], used: u16) -> Vec<T> {
    places.iter().copied().take(usize::from(used)).collect()
}

/// An array that starts with the list and goes on with zeros, and the list's length.
fn with_zeros<T: Copy + Default, const N: usize>(list: &[T]) -> (u16, [T; N]) {
    let mut places = [T::default(); N];
    places[..list.len()].copy_from_slice(list);
    (list.len() as u16, places)
}

impl Listed {
    /// The identifiers' numbers as a list.
    pub fn to_list(&self) -> Vec<u16> {
        used_places(&self.ids, self.used)
    }

    /// The one form of a list of at most 64 identifiers.
    pub(crate) fn from_list(list: &[u16]) -> Self {
        let (used, ids) = with_zeros(list);
        Listed { used, ids }
    }
}

impl Buffer {
    /// The postings as a list.
    pub fn to_list(&self) -> Vec<Posting> {
        used_places(&self.postings, self.used)
    }

    /// The one form of a list of at most 128 postings.
    pub(crate) fn from_list(list: &[Posting]) -> Self {
        let (used, postings) = with_zeros(list);
        Buffer { used, postings }
    }
}

impl Partitions {
    /// The records as a list.
    pub fn to_list(&self) -> Vec<Partition> {
        used_places(&self.records, self.used)
    }

    /// The one form of a list of at most 51 records.
    pub(crate) fn from_list(list: &[Partition]) -> Self {
        let (used, records) = with_zeros(list);
        Partitions { used, records }
    }
}

impl Default for Listed {
    fn default() -> Self {
        Listed::from_list(&[])
    }
}

impl Default for Buffer {
    fn default() -> Self {
        Buffer::from_list(&[])
    }
}

impl Default for Partitions {
    fn default() -> Self {
        Partitions::from_list(&[])
    }
}
