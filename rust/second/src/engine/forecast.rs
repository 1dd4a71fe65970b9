//! Tell what a planned session would come to.

use crate::card::blocks_for;
use crate::limits::{BLOCK, BUFFER, COUNT, ENTRY, IDENTIFIER, LEVEL_ZERO, WINDOW_IDENTIFIERS};
use crate::refusal::Refusal;
use crate::register::{is_identifier, read};
use crate::rules::{check_register, check_state};
use crate::state::State;
use std::collections::{BTreeMap, BTreeSet};

/// What a planned session would come to, up to the first refusal.
#[derive(Clone, Copy, PartialEq, Eq, Debug)]
pub struct Forecast {
    /// How many of its calls would write a partition.
    pub flushes: usize,
    /// How many blocks finished partitions would have.
    pub blocks: usize,
    /// How many entries of the register would be used.
    pub entries: usize,
    /// The first call that would be refused.
    pub stop: Option<Stop>,
}

/// A call of a plan that would be refused.
#[derive(Clone, Copy, PartialEq, Eq, Debug)]
pub struct Stop {
    /// The window's place in the plan, from 1.
    pub window: usize,
    /// The event's place in its window, from 1; 0 for the open.
    pub event: usize,
    /// Why it would be refused.
    pub refusal: Refusal,
}

/// Tells what it would come to if each window of a plan were opened, its events
/// counted and the window closed, with no merge step between. A plan is entries
/// like the register's, and how many of them each window has.
pub fn forecast(
    state: &State,
    register: &[u8],
    plan: &[u8],
    counts: &[u32],
) -> Result<Forecast, Refusal> {
    check_state(state)?;
    check_register(state, register)?;
    let names = read(register).ok_or(Refusal::Malformed)?;
    let windows = read_plan(plan, counts).ok_or(Refusal::Malformed)?;
    let mut course = Course::of(state, names);
    let stop = course.follow(&windows).err();
    Ok(Forecast {
        flushes: course.flushes,
        blocks: course.blocks,
        entries: course.numbers.len(),
        stop,
    })
}

/// The identifiers of each window of a plan, or `None` if the plan is malformed.
fn read_plan<'a>(plan: &'a [u8], counts: &[u32]) -> Option<Vec<Vec<&'a [u8]>>> {
    if !plan.len().is_multiple_of(ENTRY) {
        return None;
    }
    let events: Option<Vec<&[u8]>> = plan.chunks_exact(ENTRY).map(read_entry).collect();
    let events = events?;
    // Wide enough for every list of counts.
    let total: u128 = counts.iter().map(|&count| u128::from(count)).sum();
    if total != events.len() as u128 {
        return None;
    }
    let mut events = events.into_iter();
    let windows = counts.iter();
    let windows = windows.map(|&count| events.by_ref().take(count as usize).collect());
    Some(windows.collect())
}

/// An entry's identifier, or `None` if a byte after it is not zero. One that is
/// too long for an entry has nothing after it: the whole entry stands for it,
/// which is too long as well.
fn read_entry(entry: &[u8]) -> Option<&[u8]> {
    let length = usize::from(entry[0]);
    if length > IDENTIFIER {
        return Some(entry);
    }
    let (name, padding) = entry[1..].split_at(length);
    padding.iter().all(|&byte| byte == 0).then_some(name)
}

/// What the calls of a plan go by, moved on as they would move it.
struct Course {
    /// The number of each identifier in the register.
    numbers: BTreeMap<Vec<u8>, usize>,
    /// The register's entries, used or not.
    entries: usize,
    /// The last window number given.
    last: u16,
    /// Whether the window of that number is open.
    is_open: bool,
    /// The open window's events and identifiers.
    events: u16,
    listed: BTreeSet<usize>,
    /// Identifier and window of the buffered postings. A count only grows, so that
    /// none leaves the buffer but by a flush.
    pairs: BTreeSet<(usize, u16)>,
    /// The partitions of level 0.
    level_zero: usize,
    /// The blocks of finished partitions, and those of the card.
    blocks: usize,
    card: usize,
    /// The flushes so far.
    flushes: usize,
}

impl Course {
    fn of(state: &State, names: Vec<Vec<u8>>) -> Self {
        let partitions = state.partitions.to_list();
        let buffer = state.buffer.to_list();
        Course {
            numbers: names.into_iter().zip(0..).collect(),
            entries: state.lengths.register as usize / ENTRY,
            last: state.windows.last,
            is_open: state.windows.open != 0,
            events: 0,
            listed: BTreeSet::new(),
            pairs: buffer.iter().map(|p| (p.id.into(), p.window)).collect(),
            level_zero: partitions.iter().filter(|p| p.level == 0).count(),
            blocks: partitions.iter().map(|p| blocks_for(p.length)).sum(),
            card: state.lengths.card as usize / BLOCK,
            flushes: 0,
        }
    }

    /// Goes through the windows up to the first refusal.
    fn follow(&mut self, windows: &[Vec<&[u8]>]) -> Result<(), Stop> {
        for (window, identifiers) in (1..).zip(windows) {
            let stop = |event, refusal| Stop {
                window,
                event,
                refusal,
            };
            self.open().map_err(|refusal| stop(0, refusal))?;
            for (event, identifier) in (1..).zip(identifiers) {
                let counted = self.event(identifier);
                counted.map_err(|refusal| stop(event, refusal))?;
            }
            self.close();
        }
        Ok(())
    }

    fn open(&mut self) -> Result<(), Refusal> {
        if self.is_open {
            return Err(Refusal::WrongWindow);
        }
        if self.last == u16::MAX {
            return Err(Refusal::UsedUp);
        }
        self.last += 1;
        self.is_open = true;
        Ok(())
    }

    fn event(&mut self, identifier: &[u8]) -> Result<(), Refusal> {
        if !is_identifier(identifier) {
            return Err(Refusal::BadIdentifier);
        }
        if self.events == COUNT {
            return Err(Refusal::UsedUp);
        }
        let known = self.numbers.get(identifier).copied();
        if known.is_none() && self.numbers.len() == self.entries {
            return Err(Refusal::FullRegister);
        }
        let number = known.unwrap_or(self.numbers.len());
        if !self.listed.contains(&number) && self.listed.len() == WINDOW_IDENTIFIERS {
            return Err(Refusal::FullWindow);
        }
        let pair = (number, self.last);
        if !self.pairs.contains(&pair) && self.pairs.len() == BUFFER {
            self.flush()?;
        }
        if known.is_none() {
            self.numbers.insert(identifier.to_vec(), number);
        }
        self.listed.insert(number);
        self.pairs.insert(pair);
        self.events += 1;
        Ok(())
    }

    /// Makes the buffer a partition of level 0, which is always one block.
    fn flush(&mut self) -> Result<(), Refusal> {
        if self.level_zero == LEVEL_ZERO {
            return Err(Refusal::FullLevel);
        }
        if 2 * (self.blocks + 1) > self.card {
            return Err(Refusal::FullCard);
        }
        self.level_zero += 1;
        self.blocks += 1;
        self.flushes += 1;
        self.pairs.clear();
        Ok(())
    }

    /// Closes the open window; without events its number is given again.
    fn close(&mut self) {
        if self.events == 0 {
            self.last -= 1;
        }
        self.is_open = false;
        self.events = 0;
        self.listed.clear();
    }
}
