//! Merges: which partitions are due, and what they give.

use crate::limits::{LAST_LEVEL, STEP, fan_in};
use crate::partition::{Stored, length_of, packed, posting_space};
use crate::postings::{Sums, add, are_counts, nonzero};
use crate::state::{Partition, Posting};
use std::ops::Range;

/// A merge: its inputs' places in the list and what it makes of them.
pub struct Merge {
    /// The places of the inputs in the list of partitions.
    pub inputs: Range<usize>,
    /// The level of the result.
    pub level: u16,
    /// The sum of every pair of the inputs.
    sums: Sums,
    /// The sums that are not 0: the postings of the result.
    pub result: Vec<Posting>,
}

/// The highest level with enough partitions for a merge.
pub fn due_level(partitions: &[Partition]) -> Option<u16> {
    let count = |level| partitions.iter().filter(|p| p.level == level).count();
    (0..=LAST_LEVEL)
        .rev()
        .find(|&level| count(level) >= fan_in(level))
}

/// The places of the oldest partitions of a due level. Levels never rise along
/// the list, so they stand side by side.
fn oldest(partitions: &[Partition], level: u16) -> Range<usize> {
    let start = partitions.iter().take_while(|p| p.level > level).count();
    start..start + fan_in(level)
}

/// How many pairs so many steps take, if there are enough.
fn pairs_in(steps: u32) -> usize {
    (steps as usize).saturating_mul(STEP)
}

impl Merge {
    /// The merge of a due level, or `None` if an input's list is malformed or a
    /// sum is none that a posting can hold.
    pub fn of_level(level: u16, partitions: &[Partition], stored: &[Stored]) -> Option<Merge> {
        let inputs = oldest(partitions, level);
        let mut sums = Sums::new();
        for input in &stored[inputs.clone()] {
            add(&mut sums, &input.all_lists()?);
        }
        are_counts(&sums).then(|| Merge {
            inputs,
            level: LAST_LEVEL.min(level + 1),
            result: nonzero(&sums),
            sums,
        })
    }

    /// This merge as a wrong engine makes it: sums below 0 are dropped with those of 0.
    pub fn without_negatives(mut self) -> Merge {
        for sum in self.sums.values_mut() {
            *sum = (*sum).max(0);
        }
        self.result = nonzero(&self.sums);
        self
    }

    /// The length of the output.
    pub fn length(&self) -> u32 {
        length_of(&self.result)
    }

    /// Whether pairs are left to take after so many steps.
    pub fn has_pairs_after(&self, steps: u32) -> bool {
        pairs_in(steps) < self.sums.len()
    }

    /// How many postings the result has after so many steps.
    pub fn postings_after(&self, steps: u32) -> usize {
        let taken = self.sums.values().take(pairs_in(steps));
        taken.filter(|&&sum| sum != 0).count()
    }

    /// The postings of the result that so many steps write.
    pub fn written_after(&self, steps: u32) -> &[Posting] {
        &self.result[..self.postings_after(steps)]
    }

    /// The content of the output after so many steps: only postings, in their
    /// final places, in the given number of bytes.
    pub fn content_after(&self, steps: u32, bytes: usize) -> Vec<u8> {
        let mut content = vec![255; bytes];
        let so_far = packed(self.written_after(steps));
        content[posting_space(&self.result)..][..so_far.len()].copy_from_slice(&so_far);
        content
    }
}
