//! The account of the card: which postings lie in which partition.

use super::Answer;
use std::cmp::Reverse;
use std::collections::BTreeMap;
use std::ops::{Range, RangeInclusive};

/// An identifier's number, a window and a signed count.
pub type Entry = (usize, u32, i64);

/// Signed counts by identifier ascending, then window descending.
pub type Pairs = BTreeMap<(usize, Reverse<u32>), i64>;

/// A partition: its level and its postings in order.
#[derive(Clone, PartialEq, Eq, Debug)]
pub struct Part {
    /// The level.
    pub level: usize,
    /// The postings, by identifier ascending, then window descending.
    pub entries: Vec<Entry>,
}

/// A merge that is due: which parts it takes and what it makes of them.
#[derive(Clone, PartialEq, Eq, Debug)]
pub struct Due {
    /// The places of the parts it takes.
    pub inputs: Range<usize>,
    /// Every pair with its sum, in order, sums of 0 included.
    pub pairs: Vec<Entry>,
    /// The result; without postings it makes no partition.
    pub result: Part,
}

/// The buffer, the partitions and the merge in progress.
#[derive(Clone, PartialEq, Eq, Debug)]
pub struct Account {
    /// The card's number of blocks.
    pub blocks: usize,
    /// The postings not yet on the card.
    pub buffer: Pairs,
    /// The finished partitions, oldest first.
    pub parts: Vec<Part>,
    /// Steps done of the merge in progress; 0 for none.
    pub steps: usize,
}

/// The postings in order, without sums of 0.
fn entries(pairs: &Pairs) -> Vec<Entry> {
    let list = pairs
        .iter()
        .map(|(&(id, window), &sum)| (id, window.0, sum));
    list.filter(|entry| entry.2 != 0).collect()
}

impl Part {
    /// Bytes of content: a header of 32, 12 an identifier, 4 a posting.
    pub fn length(&self) -> usize {
        if self.entries.is_empty() {
            return 0;
        }
        let lists = self.entries.chunk_by(|a, b| a.0 == b.0);
        32 + 12 * lists.count() + 4 * self.entries.len()
    }

    /// Whether a query over a stretch passes it over: all its windows are below or all are above.
    pub fn is_outside(&self, stretch: &RangeInclusive<u32>) -> bool {
        let windows = || self.entries.iter().map(|entry| entry.1);
        windows().all(|window| window < *stretch.start())
            || windows().all(|window| window > *stretch.end())
    }

    /// Blocks, of 4,092 bytes of content each.
    pub fn blocks(&self) -> usize {
        self.length().div_ceil(4092)
    }
}

impl Account {
    /// The account of a fresh card.
    pub fn new(blocks: usize) -> Self {
        Account {
            blocks,
            buffer: Pairs::new(),
            parts: Vec::new(),
            steps: 0,
        }
    }

    /// Whether a count of the pair can be buffered without a flush.
    pub fn has_room_for(&self, id: usize, window: u32) -> bool {
        self.buffer.len() < 128 || self.buffer.contains_key(&(id, Reverse(window)))
    }

    /// Buffers a count; a sum of 0 leaves the buffer.
    pub fn add(&mut self, id: usize, window: u32, count: i64) {
        let pair = (id, Reverse(window));
        *self.buffer.entry(pair).or_insert(0) += count;
        self.buffer.retain(|_, sum| *sum != 0);
    }

    /// Makes the buffer, which is not empty, the newest partition.
    pub fn flush(&mut self) -> Answer<()> {
        if self.parts.iter().filter(|part| part.level == 0).count() == 16 {
            return Err(10);
        }
        if 2 * (self.finished_blocks() + 1) > self.blocks {
            return Err(11);
        }
        if self.free_blocks() == 0 {
            return Err(12);
        }
        let entries = entries(&self.buffer);
        self.parts.push(Part { level: 0, entries });
        self.buffer.clear();
        Ok(())
    }

    /// Takes the next sixteen pairs, or the rest, of the merge that is due.
    pub fn step(&mut self) -> Answer<()> {
        let due = self.due().ok_or(13)?;
        if self.steps == 0 && due.result.blocks() > self.free_blocks() {
            return Err(12);
        }
        self.steps += 1;
        if 16 * self.steps >= due.pairs.len() {
            self.steps = 0;
            self.parts.drain(due.inputs.clone());
            if !due.result.entries.is_empty() {
                self.parts.insert(due.inputs.start, due.result);
            }
        }
        Ok(())
    }

    /// How many postings lie under the identifiers, in the buffer and in the partitions
    /// that are not outside a stretch.
    pub fn stored(&self, ids: &[usize], stretch: &RangeInclusive<u32>) -> usize {
        let read = self.parts.iter().filter(|part| !part.is_outside(stretch));
        let on_card = read.flat_map(|part| &part.entries);
        on_card.filter(|entry| ids.contains(&entry.0)).count()
            + self
                .buffer
                .keys()
                .filter(|pair| ids.contains(&pair.0))
                .count()
    }

    /// The merge in progress or to be begun.
    pub fn due(&self) -> Option<Due> {
        let (inputs, level) = self.due_inputs()?;
        Some(self.merge(inputs, level))
    }

    /// The oldest partitions of the highest level that has enough, and the level.
    pub fn due_inputs(&self) -> Option<(Range<usize>, usize)> {
        for level in [5, 4, 3, 2, 1, 0] {
            let wanted = if level == 5 { 3 } else { 8 };
            let places: Vec<usize> = (0..self.parts.len())
                .filter(|&place| self.parts[place].level == level)
                .take(wanted)
                .collect();
            if places.len() == wanted {
                return Some((places[0]..places[0] + wanted, level));
            }
        }
        None
    }

    fn merge(&self, inputs: Range<usize>, level: usize) -> Due {
        let mut sums = Pairs::new();
        for part in &self.parts[inputs.clone()] {
            for &(id, window, count) in &part.entries {
                *sums.entry((id, Reverse(window))).or_insert(0) += count;
            }
        }
        Due {
            inputs,
            pairs: sums.iter().map(|(&(id, w), &sum)| (id, w.0, sum)).collect(),
            result: Part {
                level: (level + 1).min(5),
                entries: entries(&sums),
            },
        }
    }

    /// Blocks of the finished partitions.
    pub fn finished_blocks(&self) -> usize {
        self.parts.iter().map(Part::blocks).sum()
    }

    /// Blocks of the output in progress.
    pub fn output_blocks(&self) -> usize {
        if self.steps == 0 {
            return 0;
        }
        self.due().map_or(0, |due| due.result.blocks())
    }

    /// Blocks of no partition and no output.
    pub fn free_blocks(&self) -> usize {
        self.blocks - self.finished_blocks() - self.output_blocks()
    }
}
