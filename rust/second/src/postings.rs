//! Postings: their packed form, and their sums by (identifier, window) pair.

use crate::limits::COUNT;
use crate::state::Posting;
use std::cmp::Reverse;
use std::collections::BTreeMap;

/// The sum of each pair's counts, in the order of a buffer.
pub type Sums = BTreeMap<(u16, Reverse<u16>), i32>;

/// Adds postings to the sums.
pub fn add(sums: &mut Sums, postings: &[Posting]) {
    for posting in postings {
        let sum = sums
            .entry((posting.id, Reverse(posting.window)))
            .or_insert(0);
        *sum += i32::from(posting.count);
    }
}

/// Whether a sum is one that a posting can hold, or 0.
pub fn is_count(sum: i32) -> bool {
    sum.unsigned_abs() <= u32::from(COUNT)
}

/// Whether each sum is one that a posting can hold, or 0.
pub fn are_counts(sums: &Sums) -> bool {
    sums.values().all(|&sum| is_count(sum))
}

/// Cuts each sum to one that a posting can hold.
pub fn cut_to_counts(sums: &mut Sums) {
    let most = i32::from(COUNT);
    for sum in sums.values_mut() {
        *sum = (*sum).clamp(-most, most);
    }
}

/// The sums that are not 0, as postings. Each sum must be one that a posting can hold.
pub fn nonzero(sums: &Sums) -> Vec<Posting> {
    sums.iter()
        .filter(|&(_, &sum)| sum != 0)
        .map(|(&(id, Reverse(window)), &sum)| Posting {
            id,
            window,
            count: sum as i16,
        })
        .collect()
}

/// The packed form: the window, the sign, and the size of the count.
pub fn pack(posting: &Posting) -> u32 {
    let size = u32::from(posting.count.unsigned_abs());
    let sign = if posting.count < 0 { 1 << 15 } else { 0 };
    u32::from(posting.window) << 16 | sign | size
}

/// A packed posting of an identifier, or `None` if its count or window is 0.
pub fn unpack(id: u16, word: u32) -> Option<Posting> {
    let size = (word & 0x7fff) as i16;
    let negative = word & 1 << 15 != 0;
    let window = (word >> 16) as u16;
    let count = if negative { -size } else { size };
    (size != 0 && window != 0).then_some(Posting { id, window, count })
}
