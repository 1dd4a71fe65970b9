//! The image of a state, by which engines exchange it: 716 little-endian words, one for each number.
//!
//! In this order: the lengths of card and register; the highest window number so far, N, which window is open and its events; how many
//! identifiers that has, and their 64 places; how many postings are buffered, and their 128 places of identifier, window and count
//! raised by 32,768; how many partitions are finished, and their 51 places of first block, level, length, lowest and
//! highest window; the block last taken; the merge's first block, length and steps. All but lengths and steps are below 65,536.

use crate::state::{Partition, Posting, State};
use std::slice::ChunksExact;

/// Bytes of an image.
pub const LENGTH: usize = 716 * 4;

/// What is added to a signed count.
const RAISED: i32 = 32_768;

/// The image of a state.
pub fn write(state: &State) -> Vec<u8> {
    let windows = &state.windows;
    let mut words = vec![state.lengths.card, state.lengths.register];
    let numbers = [windows.last, windows.live, windows.open, windows.events];
    words.extend(numbers.map(u32::from));
    words.push(state.listed.used.into());
    words.extend(state.listed.ids.map(u32::from));
    words.push(state.buffer.used.into());
    for posting in &state.buffer.postings {
        let count = i32::from(posting.count) + RAISED;
        words.extend([posting.id.into(), posting.window.into(), count as u32]);
    }
    words.push(state.partitions.used.into());
    for record in &state.partitions.records {
        words.extend([record.first.into(), record.level.into(), record.length]);
        words.extend([record.lowest, record.highest].map(u32::from));
    }
    words.extend([state.taken, state.merge.first].map(u32::from));
    words.extend([state.merge.length, state.merge.steps]);
    words.into_iter().flat_map(u32::to_le_bytes).collect()
}

/// The words still to be read.
struct Words<'a>(ChunksExact<'a, u8>);

impl Words<'_> {
    /// A number that may need all 32 bits.
    fn wide(&mut self) -> u32 {
        let word = self.0.next().expect("an image has all words");
        u32::from_le_bytes(word.try_into().expect("a word has four bytes"))
    }

    /// A number below 65,536.
    fn narrow(&mut self) -> Option<u16> {
        self.wide().try_into().ok()
    }

    fn posting(&mut self) -> Option<Posting> {
        Some(Posting {
            id: self.narrow()?,
            window: self.narrow()?,
            count: (i32::from(self.narrow()?) - RAISED) as i16,
        })
    }

    fn record(&mut self) -> Option<Partition> {
        Some(Partition {
            first: self.narrow()?,
            level: self.narrow()?,
            length: self.wide(),
            lowest: self.narrow()?,
            highest: self.narrow()?,
        })
    }
}

/// The state of an image, or `None` if the bytes are no image.
pub fn read(image: &[u8]) -> Option<State> {
    if image.len() != LENGTH {
        return None;
    }
    let mut words = Words(image.chunks_exact(4));
    let mut state = State::default();
    state.lengths.card = words.wide();
    state.lengths.register = words.wide();
    state.windows.last = words.narrow()?;
    state.windows.live = words.narrow()?;
    state.windows.open = words.narrow()?;
    state.windows.events = words.narrow()?;
    state.listed.used = words.narrow()?;
    for id in &mut state.listed.ids {
        *id = words.narrow()?;
    }
    state.buffer.used = words.narrow()?;
    for posting in &mut state.buffer.postings {
        *posting = words.posting()?;
    }
    state.partitions.used = words.narrow()?;
    for record in &mut state.partitions.records {
        *record = words.record()?;
    }
    state.taken = words.narrow()?;
    state.merge.first = words.narrow()?;
    state.merge.length = words.wide();
    state.merge.steps = words.wide();
    Some(state)
}
