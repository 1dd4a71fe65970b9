//! The engine beside the ledger: every call goes to both and all is compared.

use crate::build::{register_of, state_of};
use crate::image::{BLOCK, FREE, check_card, walk};
use crate::made::{Told, really, told, told_by_ledger};
use crate::planned::{Windows, laid_out};
use crate::tally::Tally;
use second::commands::Probe;
use second::engine;
use second::ledger::Ledger;
use second::ledger::account::{Due, Entry, Part};
use second::refusal::Refusal;
use second::state::{Hit, MergeJob, Partition, State};
use second::stretch::Stretch;
use std::collections::{BTreeMap, BTreeSet};
use std::fmt::Debug;

pub struct Twin {
    pub state: State,
    pub card: Vec<u8>,
    pub register: Vec<u8>,
    pub ledger: Ledger,
    pub tally: Tally,
    before: Before,
}

/// All of it before the call, as far as it is compared.
struct Before {
    state: State,
    card: Vec<u8>,
    register: Vec<u8>,
    last: u32,
    parts: usize,
    steps: usize,
}

/// What a query answers: window and score of each hit, and the postings taken.
pub type Found = Result<(Vec<(u32, u32)>, usize), u8>;

/// What a place in a list of hits holds before a query.
fn marker(place: usize) -> Hit {
    Hit {
        window: 0xabcd,
        score: place as u32 + 0xdead_0000,
    }
}

impl Twin {
    /// Both on a fresh card.
    pub fn new(blocks: usize, entries: usize) -> Self {
        let mut card = vec![7; blocks * BLOCK];
        let mut register = vec![7; entries * 65];
        let (state, result) = engine::start(&mut card, &mut register);
        assert_eq!(result, Ok(()));
        Twin::of(state, card, register, Ledger::new(blocks, entries))
    }

    /// Both on a card that is not fresh.
    pub fn of(state: State, card: Vec<u8>, register: Vec<u8>, ledger: Ledger) -> Self {
        let before = Before {
            state: state.clone(),
            card: card.clone(),
            register: register.clone(),
            last: ledger.last,
            parts: ledger.account.parts.len(),
            steps: ledger.account.steps,
        };
        let twin = Twin {
            state,
            card,
            register,
            ledger,
            tally: Tally::default(),
            before,
        };
        twin.check_state();
        twin.check_merge();
        twin.check_register();
        check_card(&twin.state, &twin.card, &twin.ledger.account);
        twin
    }

    pub fn open(&mut self) -> Result<u32, u8> {
        let engine = engine::open(&mut self.state).map(u32::from);
        let ledger = self.ledger.open();
        self.compare("open", engine, ledger)
    }

    pub fn event(&mut self, identifier: &[u8]) -> Result<(), u8> {
        let engine = engine::event(
            &mut self.state,
            &mut self.card,
            &mut self.register,
            identifier,
        );
        let ledger = self.ledger.event(identifier);
        self.compare("event", engine, ledger)
    }

    pub fn close(&mut self) -> Result<(), u8> {
        let engine = engine::close(&mut self.state);
        let ledger = self.ledger.close();
        self.compare("close", engine, ledger)
    }

    pub fn remove(&mut self, window: u32) -> Result<(), u8> {
        let engine = engine::remove(&mut self.state, &mut self.card, window);
        let ledger = self.ledger.remove(window);
        self.compare("remove", engine, ledger)
    }

    pub fn remove_all(&mut self, windows: &[u32]) -> Result<(), u8> {
        let engine = engine::remove_all(&mut self.state, &mut self.card, windows);
        let before = self.ledger.clone();
        let ledger = self.ledger.remove_all(windows);
        self.see_list(before, windows, ledger);
        self.compare("remove_all", engine, ledger)
    }

    pub fn flush(&mut self) -> Result<(), u8> {
        let engine = engine::flush(&mut self.state, &mut self.card);
        let ledger = self.ledger.flush();
        self.compare("flush", engine, ledger)
    }

    pub fn step(&mut self) -> Result<(), u8> {
        let due = self.ledger.account.due();
        let engine = engine::step(&mut self.state, &mut self.card);
        let ledger = self.ledger.step();
        let result = self.compare("step", engine, ledger);
        if result.is_ok() && self.ledger.account.steps == 0 {
            self.see_merge(&due.expect("a step has work"));
        }
        result
    }

    /// Answers the hits over all windows and the postings taken.
    pub fn query(&mut self, ids: &[&[u8]], places: usize) -> Found {
        self.query_in(ids, Stretch::ALL, places)
    }

    /// Answers the hits of a stretch and the postings taken.
    pub fn query_in(&mut self, ids: &[&[u8]], stretch: Stretch, places: usize) -> Found {
        let mut hits: Vec<Hit> = (0..places).map(marker).collect();
        let engine = engine::query(
            &self.state,
            &self.card,
            &self.register,
            ids,
            stretch,
            &mut hits,
        );
        let listed = engine.map_or(0, |found| usize::from(found.hits));
        let kept = (listed..places).all(|place| hits[place] == marker(place));
        assert!(kept, "places beyond the last hit");
        let list: Vec<(u32, u32)> = hits[..listed]
            .iter()
            .map(|hit| (hit.window.into(), hit.score))
            .collect();
        let engine = engine.map(|found| (list, found.taken as usize));
        let windows = u32::from(stretch.first)..=u32::from(stretch.last);
        let ledger = self.ledger.query(ids, windows, places);
        let ledger = ledger.map(|reply| (reply.hits, reply.taken));
        if let Ok((hits, _)) = &ledger {
            self.see_reading("queries", ids);
            self.see_stretch(stretch, !hits.is_empty());
            let mut pairs = hits.windows(2);
            if pairs.any(|pair| pair[0].1 > 0 && pair[0].1 == pair[1].1) {
                self.tally.see("queries with equal scores above 0");
            }
        }
        self.compare("query", engine, ledger)
    }

    /// Answers quotient, remainder and windows.
    pub fn mean(&mut self, identifier: &[u8]) -> Result<(u32, u32, u32), u8> {
        let engine = engine::mean(&self.state, &self.card, &self.register, identifier);
        let engine = engine.map(|mean| {
            let numbers = [mean.quotient, mean.remainder, mean.windows];
            numbers.map(u32::from).into()
        });
        let ledger = self.ledger.mean(identifier);
        let ledger = ledger.map(|mean| (mean.quotient, mean.remainder, mean.windows));
        self.see_mean(identifier, ledger);
        self.compare("mean", engine, ledger)
    }

    /// What a plan would come to, which is what its calls come to on this card.
    pub fn forecast(&mut self, windows: &Windows) -> Told {
        let (plan, counts) = laid_out(windows);
        let engine = engine::forecast(&self.state, &self.register, &plan, &counts);
        let ledger = told_by_ledger(self.ledger.forecast(windows));
        assert_eq!(really(&self.probe(), windows), ledger, "forecast");
        self.see_forecast(windows, ledger);
        let compared = self.compare("forecast", engine.map(told), Ok(ledger));
        compared.expect("the ledger refuses no plan")
    }

    /// A copy of what the engine has.
    pub fn probe(&self) -> Probe {
        Probe {
            state: self.state.clone(),
            card: self.card.clone(),
            register: self.register.clone(),
        }
    }

    /// Compares the answers, then everything else.
    fn compare<T: PartialEq + Debug>(
        &mut self,
        call: &'static str,
        engine: Result<T, Refusal>,
        ledger: Result<T, u8>,
    ) -> Result<T, u8> {
        let engine = engine.map_err(Refusal::number);
        assert_eq!(engine, ledger, "{call}");
        self.tally.record(call, ledger.as_ref().err().copied());
        if ledger.is_err() || matches!(call, "query" | "mean" | "forecast") {
            assert!(self.state == self.before.state, "{call} changed the state");
            assert!(self.card == self.before.card, "{call} changed the card");
            let same = self.register == self.before.register;
            assert!(same, "{call} changed the register");
        } else {
            self.settle(call);
        }
        ledger
    }

    /// Checks what a call has left behind, and remembers it for the next one.
    fn settle(&mut self, call: &'static str) {
        self.check_state();
        if call == "step" {
            self.check_merge();
        } else {
            assert_eq!(self.state.merge, self.before.state.merge, "{call}");
        }
        let changed = check_byte_rule(&self.before.card, &self.card);
        self.check_taking(call, &changed);
        if !changed.is_empty() || self.state.partitions != self.before.state.partitions {
            check_card(&self.state, &self.card, &self.ledger.account);
        }
        self.see(call);
        for number in changed {
            let place = number * BLOCK..(number + 1) * BLOCK;
            self.before.card[place.clone()].copy_from_slice(&self.card[place]);
        }
        if self.register != self.before.register {
            self.check_register();
            self.before.register.clone_from(&self.register);
        }
        self.before.state.clone_from(&self.state);
        self.before.last = self.ledger.last;
        self.before.parts = self.ledger.account.parts.len();
        self.before.steps = self.ledger.account.steps;
    }

    /// Compares the state with ledger and account, all but the places of
    /// blocks and the merge in progress.
    fn check_state(&self) {
        let mut expected = state_of(&self.ledger);
        expected.taken = self.state.taken;
        expected.merge = self.state.merge;
        let places = expected.partitions.records.iter_mut();
        for (place, record) in places.zip(&self.state.partitions.records) {
            place.first = record.first;
        }
        let used = usize::from(expected.partitions.used);
        let rest = &expected.partitions.records[used..];
        assert!(rest.iter().all(|record| *record == Partition::default()));
        assert_eq!(self.state, expected);
    }

    fn check_merge(&self) {
        let (state, account) = (&self.state, &self.ledger.account);
        if account.steps == 0 {
            assert_eq!(state.merge, MergeJob::default());
            return;
        }
        let due = account.due().expect("a merge in progress");
        assert_eq!(state.merge.steps as usize, account.steps);
        assert_eq!(state.merge.length as usize, due.result.length());
        assert!(state.merge.length > 0 || state.merge.first == 65_534);
    }

    fn check_register(&self) {
        assert!(self.register == register_of(&self.ledger), "register");
    }

    /// Blocks taken are the next free ones, and the last of them is remembered.
    /// They are one chain, but each flush inside a list takes its own block.
    fn check_taking(&mut self, call: &'static str, changed: &[usize]) {
        let is_free = |card: &[u8], number: usize| card[number * BLOCK..][..BLOCK] == FREE;
        let (state, card) = (&self.before.state, &self.before.card);
        let taken: BTreeSet<usize> = changed
            .iter()
            .copied()
            .filter(|&number| is_free(card, number) && !is_free(&self.card, number))
            .collect();
        if taken.is_empty() {
            assert_eq!(self.state.taken, state.taken);
            return;
        }
        let blocks = card.len() / BLOCK;
        let after = usize::from(state.taken) + 1;
        let expected: Vec<usize> = (after..after + blocks)
            .map(|number| number % blocks)
            .filter(|&number| is_free(card, number))
            .take(taken.len())
            .collect();
        assert_eq!(taken, expected.iter().copied().collect());
        let length = match call {
            "remove_all" => 1,
            _ => expected.len(),
        };
        for chain in expected.chunks(length) {
            assert_eq!(walk(&self.card, chain[0], length), chain);
        }
        assert_eq!(usize::from(self.state.taken), expected[expected.len() - 1]);
        if self.state.taken < state.taken {
            self.tally.see("blocks taken round the end");
        }
        if length > 1 {
            self.tally.see("outputs of several blocks");
        }
    }

    /// Notes what a call did that is worth testing.
    fn see(&mut self, call: &'static str) {
        let grew = self.ledger.account.parts.len() > self.before.parts;
        let sight = match call {
            "event" if grew => "flushes inside events",
            "remove" if grew => "flushes inside removals",
            "flush" if grew && self.before.steps > 0 => "flushes during a merge",
            "flush" if !grew => "flushes of an empty buffer",
            "close" if self.ledger.last < self.before.last => "numbers given back",
            _ => return,
        };
        self.tally.see(sight);
    }

    /// Notes how far a list of windows came, and where it flushed.
    fn see_list(&mut self, before: Ledger, windows: &[u32], answer: Result<(), u8>) {
        if let Err(number) = answer {
            self.tally.see(&format!("lists refused with {number}"));
            if number == 16 {
                return;
            }
        }
        let parts = before.account.parts.len();
        let is_merging = before.account.steps > 0;
        let mut ledger = before;
        // How many partitions there are after each removal.
        let removals = windows.iter().map_while(|&window| {
            let removed = ledger.remove(window);
            removed.ok().map(|()| ledger.account.parts.len())
        });
        let grown: Vec<usize> = removals.collect();
        let (first, last) = match grown[..] {
            [first, .., last] => (first, last),
            [only] => (only, only),
            [] => return,
        };
        let kind = if answer.is_ok() { "done" } else { "refused" };
        let sights = [
            ("past the first window", grown.len() > 1 || answer.is_err()),
            ("after 32 windows", grown.len() == 32),
            ("with a flush", last > parts),
            ("with a flush past the first window", last > first),
            ("with several flushes", last > parts + 1),
            ("during a merge", is_merging),
        ];
        for (sight, is_seen) in sights {
            if is_seen {
                self.tally.see(&format!("lists {kind} {sight}"));
            }
        }
    }

    fn see_merge(&mut self, due: &Due) {
        let dropped = due.pairs.len() - due.result.entries.len();
        if due.result.entries.iter().any(|entry| entry.2 < 0) {
            self.tally.see("merges that keep a negative posting");
        }
        if due.result.entries.is_empty() {
            self.tally.see("merges with an empty result");
            if due.pairs.len() > 16 {
                self.tally.see("empty results after several steps");
            }
        } else if dropped > 0 {
            self.tally.see("merges that drop a sum of 0");
        }
        let level = due.result.level;
        self.tally.see(&format!("merges to level {level}"));
    }

    /// Notes what a stretch leaves out and what it finds.
    fn see_stretch(&mut self, stretch: Stretch, has_hits: bool) {
        let records = self.state.partitions.to_list();
        let passed = records.iter().filter(|record| stretch.passes_over(record));
        let passed = passed.count();
        let is_cut = |record: &&Partition| {
            let edges = [record.lowest, record.highest];
            !stretch.passes_over(record) && edges.iter().any(|&window| !stretch.has(window))
        };
        let spans = |record: &&Partition| {
            !stretch.has(record.lowest) && !stretch.has(record.highest) && is_cut(record)
        };
        let sights = [
            ("past a partition", passed > 0),
            ("past all partitions", passed > 0 && passed == records.len()),
            ("past some partitions", passed > 0 && passed < records.len()),
            ("inside a partition", records.iter().any(|it| is_cut(&it))),
            ("within a partition", records.iter().any(|it| spans(&it))),
            ("of a part with hits", stretch != Stretch::ALL && has_hits),
            ("past a partition with hits", passed > 0 && has_hits),
            (
                "of one window",
                stretch.first == stretch.last && stretch.first > 0,
            ),
            ("of no window", stretch.last == 0),
            (
                "during a merge",
                passed > 0 && self.ledger.account.steps > 0,
            ),
        ];
        for (sight, is_seen) in sights {
            if is_seen {
                self.tally.see(&format!("stretches {sight}"));
            }
        }
    }

    fn see_mean(&mut self, identifier: &[u8], answer: Result<(u32, u32, u32), u8>) {
        let number = self.ledger.number(identifier);
        match answer {
            Ok((_, remainder, _)) => {
                self.see_reading("means", &[identifier]);
                if remainder > 0 {
                    self.tally.see("means with a remainder");
                }
            }
            Err(15) if number.is_none() => self.tally.see("means of an unknown identifier"),
            Err(15) if self.ledger.listed.iter().any(|listed| listed == identifier) => {
                self.tally.see("means of the open window's counts alone");
            }
            Err(15) => self.tally.see("means of removed counts alone"),
            Err(_) => {}
        }
    }

    /// Notes where a plan stops, and what it does before.
    fn see_forecast(&mut self, windows: &Windows, told: Told) {
        let (flushes, _, entries, stop) = told;
        let place = match stop {
            None => "to the end".to_string(),
            Some((_, 0, number)) => format!("to an open refused with {number}"),
            Some((_, _, number)) => format!("to an event refused with {number}"),
        };
        self.tally.see(&format!("forecasts {place}"));
        let sights = [
            ("of no window", windows.is_empty()),
            ("of a window without events", windows.contains(&Vec::new())),
            ("with a flush", flushes > 0),
            ("with several flushes", flushes > 1),
            ("with new identifiers", entries > self.ledger.known.len()),
            ("past the first window", stop.is_none_or(|stop| stop.0 > 1)),
            ("during a merge", self.ledger.account.steps > 0),
            (
                "beside removed counts",
                self.ledger.account.buffer.values().any(|&count| count < 0),
            ),
        ];
        for (sight, is_seen) in sights {
            if is_seen {
                self.tally.see(&format!("forecasts {sight}"));
            }
        }
    }

    /// Notes where the counts lie that calls of a kind answer from.
    fn see_reading(&mut self, calls: &str, ids: &[&[u8]]) {
        let account = &self.ledger.account;
        let mut sights = Vec::new();
        if account.steps > 0 {
            sights.push("during a merge");
        }
        let numbers: Vec<usize> = ids.iter().filter_map(|id| self.ledger.number(id)).collect();
        let mut holders: BTreeMap<(usize, u32), Vec<usize>> = BTreeMap::new();
        for (place, part) in account.parts.iter().enumerate() {
            for entry in part.entries.iter().filter(|e| numbers.contains(&e.0)) {
                holders.entry((entry.0, entry.1)).or_default().push(place);
            }
        }
        if holders.values().any(|places| places.len() >= 3) {
            sights.push("of a window split over three partitions");
        }
        let skips = |places: &Vec<usize>| places.windows(2).any(|pair| pair[1] > pair[0] + 1);
        if holders.values().any(skips) {
            sights.push("of a window that skips a partition");
        }
        let of_open = |entry: &Entry| self.ledger.open == Some(entry.1);
        let holds_open = |part: &&Part| {
            let mut entries = part.entries.iter();
            entries.any(|entry| of_open(entry) && numbers.contains(&entry.0))
        };
        let holding: Vec<&Part> = account.parts.iter().filter(holds_open).collect();
        if !holding.is_empty() {
            sights.push("of an open window in a partition");
        }
        if holding.iter().any(|part| part.level > 0) {
            sights.push("of an open window in a merged partition");
        }
        for sight in sights {
            self.tally.see(&format!("{calls} {sight}"));
        }
    }
}

/// A byte that changes was 255, or becomes 255 as all of its block does. Gives
/// the blocks that changed.
pub fn check_byte_rule(before: &[u8], after: &[u8]) -> Vec<usize> {
    let pairs = before.chunks_exact(BLOCK).zip(after.chunks_exact(BLOCK));
    let mut changed = Vec::new();
    for (number, (old, new)) in pairs.enumerate() {
        if old != new {
            let bytes = || old.iter().zip(new);
            let holds = new == FREE || bytes().all(|(old, new)| old == new || *old == 255);
            assert!(holds, "bytes of block {number}");
            changed.push(number);
        }
    }
    changed
}
