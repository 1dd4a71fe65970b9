//! What the calls must answer, kept without bytes.
//!
//! The ledger has the counts of every live window, and answers queries and
//! means from those of the closed ones alone: the open one shows from its close.
//! A query is answered from the ledger cut down to the windows of its stretch.
//! Beside it runs an account of the card: how many postings lie where, which
//! decides when there is no room and what a query takes up. A forecast makes
//! the planned calls on a copy of both. Neither uses any code or type of the
//! engine, so that an error is not made twice.

pub mod account;

use account::Account;
use std::collections::{BTreeMap, BTreeSet};
use std::ops::RangeInclusive;

/// An answer, or the number of the refusal.
pub type Answer<T> = Result<T, u8>;

/// What a query answers.
#[derive(Clone, PartialEq, Eq, Debug)]
pub struct Reply {
    /// Window and score of each hit.
    pub hits: Vec<(u32, u32)>,
    /// Stored postings taken up.
    pub taken: usize,
}

/// What a mean answers.
#[derive(Clone, PartialEq, Eq, Debug)]
pub struct Mean {
    /// The sum of the counts divided by how many they are, without its fraction.
    pub quotient: u32,
    /// What the division leaves over.
    pub remainder: u32,
    /// How many closed windows have the identifier.
    pub windows: u32,
}

/// What a planned session would come to, up to the first refusal.
#[derive(Clone, PartialEq, Eq, Debug)]
pub struct Forecast {
    /// How many of its calls would write a partition.
    pub flushes: usize,
    /// How many blocks finished partitions would have.
    pub blocks: usize,
    /// How many identifiers would be known.
    pub entries: usize,
    /// Where it would stop.
    pub stop: Option<Stop>,
}

/// The first call of a plan that would be refused.
#[derive(Clone, PartialEq, Eq, Debug)]
pub struct Stop {
    /// The window's place in the plan, from 1.
    pub window: usize,
    /// The event's place in its window, from 1; 0 for the open.
    pub event: usize,
    /// The refusal's number.
    pub number: u8,
}

/// The live windows and what the calls have done to them.
#[derive(Clone, PartialEq, Eq, Debug)]
pub struct Ledger {
    /// The counts of each window that exists, by identifier; the open one is among them.
    pub live: BTreeMap<u32, BTreeMap<Vec<u8>, u32>>,
    /// The last window number given.
    pub last: u32,
    /// The open window.
    pub open: Option<u32>,
    /// The open window's identifiers in order of first count.
    pub listed: Vec<Vec<u8>>,
    /// The identifiers ever counted, in order; the place is the number.
    pub known: Vec<Vec<u8>>,
    /// The most identifiers that can be known.
    pub entries: usize,
    /// The account of the card.
    pub account: Account,
}

impl Ledger {
    /// The ledger of a fresh card.
    pub fn new(blocks: usize, entries: usize) -> Self {
        Ledger {
            live: BTreeMap::new(),
            last: 0,
            open: None,
            listed: Vec::new(),
            known: Vec::new(),
            entries,
            account: Account::new(blocks),
        }
    }

    /// Opens a window.
    pub fn open(&mut self) -> Answer<u32> {
        if self.open.is_some() {
            return Err(5);
        }
        if self.last == 65_535 {
            return Err(6);
        }
        self.last += 1;
        self.open = Some(self.last);
        Ok(self.last)
    }

    /// Counts an identifier in the open window.
    pub fn event(&mut self, identifier: &[u8]) -> Answer<()> {
        if !is_identifier(identifier) {
            return Err(4);
        }
        let window = self.open.ok_or(5)?;
        if self.events() == 32_767 {
            return Err(6);
        }
        let number = match self.number(identifier) {
            Some(number) => number,
            None if self.known.len() == self.entries => return Err(8),
            None => self.known.len(),
        };
        let is_listed = self.listed.iter().any(|listed| listed == identifier);
        if !is_listed && self.listed.len() == 64 {
            return Err(9);
        }
        if !self.account.has_room_for(number, window) {
            self.account.flush()?;
        }
        if number == self.known.len() {
            self.known.push(identifier.to_vec());
        }
        if !is_listed {
            self.listed.push(identifier.to_vec());
        }
        let counts = self.live.entry(window).or_default();
        *counts.entry(identifier.to_vec()).or_insert(0) += 1;
        self.account.add(number, window, 1);
        Ok(())
    }

    /// Closes the open window, which shows from then on.
    pub fn close(&mut self) -> Answer<()> {
        let window = self.open.ok_or(5)?;
        if !self.live.contains_key(&window) {
            self.last -= 1;
        }
        self.open = None;
        self.listed.clear();
        Ok(())
    }

    /// Takes out a closed window.
    pub fn remove(&mut self, window: u32) -> Answer<()> {
        if self.open == Some(window) {
            return Err(5);
        }
        let counts = self.live.get(&window).ok_or(7)?.clone();
        if self.account.buffer.len() + counts.len() > 128 {
            self.account.flush()?;
        }
        for (identifier, count) in &counts {
            let number = self.number(identifier).expect("a counted one is known");
            self.account.add(number, window, -i64::from(*count));
        }
        self.live.remove(&window);
        Ok(())
    }

    /// Takes out all windows of a list, or none.
    pub fn remove_all(&mut self, windows: &[u32]) -> Answer<()> {
        let different: BTreeSet<u32> = windows.iter().copied().collect();
        if windows.is_empty() || windows.len() > 32 || different.len() < windows.len() {
            return Err(16);
        }
        let mut after = self.clone();
        for &window in windows {
            after.remove(window)?;
        }
        *self = after;
        Ok(())
    }

    /// Writes the buffer to the card.
    pub fn flush(&mut self) -> Answer<()> {
        if self.account.buffer.is_empty() {
            return Ok(());
        }
        self.account.flush()
    }

    /// Takes a step of a merge.
    pub fn step(&mut self) -> Answer<()> {
        self.account.step()
    }

    /// The best closed windows of a stretch for the identifiers, at most so many.
    pub fn query(
        &self,
        ids: &[&[u8]],
        stretch: RangeInclusive<u32>,
        places: usize,
    ) -> Answer<Reply> {
        if !ids.iter().all(|id| is_identifier(id)) {
            return Err(4);
        }
        let different: BTreeSet<&[u8]> = ids.iter().copied().collect();
        if ids.is_empty() || ids.len() > 5 || different.len() < ids.len() {
            return Err(14);
        }
        if places == 0 || places > 32 {
            return Err(14);
        }
        if stretch.start() > stretch.end() {
            return Err(17);
        }
        let numbers: Vec<usize> = ids.iter().filter_map(|id| self.number(id)).collect();
        let mut hits = self.scores(ids, &stretch);
        hits.sort_by(|a, b| b.1.cmp(&a.1).then(b.0.cmp(&a.0)));
        hits.truncate(places);
        Ok(Reply {
            hits,
            taken: self.account.stored(&numbers, &stretch),
        })
    }

    /// The mean of the identifier's counts over the closed windows that have it.
    pub fn mean(&self, identifier: &[u8]) -> Answer<Mean> {
        if !is_identifier(identifier) {
            return Err(4);
        }
        let windows = self.counts_of(identifier).count() as u32;
        if windows == 0 {
            return Err(15);
        }
        let sum: u32 = self.counts_of(identifier).sum();
        Ok(Mean {
            quotient: sum / windows,
            remainder: sum % windows,
            windows,
        })
    }

    /// What the windows of a plan would come to, each with its identifiers in order:
    /// the calls are made on a copy.
    pub fn forecast(&self, plan: &[Vec<Vec<u8>>]) -> Forecast {
        let mut after = self.clone();
        let stop = after.play(plan).err();
        Forecast {
            // With no merge between, a flush makes one partition more, and nothing else does.
            flushes: after.account.parts.len() - self.account.parts.len(),
            blocks: after.account.finished_blocks(),
            entries: after.known.len(),
            stop,
        }
    }

    /// Opens, counts and closes window after window, up to the first refusal.
    fn play(&mut self, plan: &[Vec<Vec<u8>>]) -> Result<(), Stop> {
        for (place, identifiers) in plan.iter().enumerate() {
            let stop = |event: usize, number: u8| Stop {
                window: place + 1,
                event,
                number,
            };
            self.open().map_err(|number| stop(0, number))?;
            for (event, identifier) in identifiers.iter().enumerate() {
                self.event(identifier)
                    .map_err(|number| stop(event + 1, number))?;
            }
            self.close().expect("the plan's window is open");
        }
        Ok(())
    }

    /// The open window's events.
    pub fn events(&self) -> u32 {
        let counts = self.open.and_then(|window| self.live.get(&window));
        counts.map_or(0, |counts| counts.values().sum())
    }

    /// The windows that show, with their counts. N is how many they are.
    pub fn closed(&self) -> impl Iterator<Item = (&u32, &BTreeMap<Vec<u8>, u32>)> {
        let windows = self.live.iter();
        windows.filter(|&(&window, _)| self.open != Some(window))
    }

    /// An identifier's number.
    pub fn number(&self, identifier: &[u8]) -> Option<usize> {
        self.known.iter().position(|known| known == identifier)
    }

    /// Every closed window of a stretch with one of the identifiers, and its score.
    fn scores(&self, ids: &[&[u8]], stretch: &RangeInclusive<u32>) -> Vec<(u32, u32)> {
        let inside = self.closed().filter(|(window, _)| stretch.contains(window));
        let inside: Vec<(&u32, &BTreeMap<Vec<u8>, u32>)> = inside.collect();
        let with = |id: &[u8]| {
            inside
                .iter()
                .filter(|entry| entry.1.contains_key(id))
                .count()
        };
        let rarities: Vec<u32> = ids
            .iter()
            .map(|&id| rarity_weight(inside.len() as u32, with(id) as u32))
            .collect();
        let mut scores = Vec::new();
        for &(&window, counts) in &inside {
            let found = ids.iter().zip(&rarities);
            let products: Vec<u32> = found
                .filter_map(|(&id, rarity)| Some(count_weight(*counts.get(id)?) * rarity))
                .collect();
            if !products.is_empty() {
                scores.push((window, products.iter().sum()));
            }
        }
        scores
    }

    /// The identifier's count in each closed window that has it.
    fn counts_of(&self, id: &[u8]) -> impl Iterator<Item = u32> {
        self.closed()
            .filter_map(move |(_, counts)| counts.get(id).copied())
    }
}

fn is_identifier(bytes: &[u8]) -> bool {
    !bytes.is_empty() && bytes.len() <= 64
}

/// The weight of a count: the sixteenths of one more.
pub fn count_weight(count: u32) -> u32 {
    sixteenths(count + 1)
}

/// The sixteenths of `live` less those of `with`; 0 if `with` is 0 or above `live`.
pub fn rarity_weight(live: u32, with: u32) -> u32 {
    if with == 0 || with > live {
        return 0;
    }
    sixteenths(live) - sixteenths(with)
}

/// The largest a with 2^a at most number^16, for a number above 0.
pub fn sixteenths(number: u32) -> u32 {
    let mut power = vec![1];
    for _ in 0..16 {
        multiply(&mut power, number);
    }
    let mut a = 0;
    let mut next = vec![2];
    while !is_above(&next, &power) {
        a += 1;
        multiply(&mut next, 2);
    }
    a
}

/// Multiplies a number of any length: its digits to base 2^32, the lowest first,
/// the last not 0.
fn multiply(digits: &mut Vec<u32>, factor: u32) {
    let mut carry = 0;
    for digit in digits.iter_mut() {
        carry += u64::from(*digit) * u64::from(factor);
        *digit = carry as u32;
        carry >>= 32;
    }
    if carry > 0 {
        digits.push(carry as u32);
    }
}

/// Whether the first of two such numbers is the larger one.
fn is_above(left: &[u32], right: &[u32]) -> bool {
    let lengths = left.len().cmp(&right.len());
    let digits = || left.iter().rev().cmp(right.iter().rev());
    lengths.then_with(digits).is_gt()
}
