//! The engines that lines are given to, behind one form: ours, the plain ledger, and wrong ones.

use crate::lines::{Command, Query};
use crate::text;
use gemsilver::{Hit, IMAGE, Identifier, Probe, Refusal, Stretch};
use second::faults::Fault;
use second::ledger::Ledger;
use second::state::State;
use second::{engine, wrong};

/// What a command is answered with.
#[derive(Clone, PartialEq, Eq, Debug)]
pub enum Answer {
    Opened(u32),
    Counted,
    Closed,
    Removed,
    Flushed,
    Stepped,
    Found {
        /// Window and score of each hit.
        hits: Vec<(u32, u32)>,
        /// Stored postings taken up.
        taken: u64,
    },
    Refused(u32),
}

impl Answer {
    /// The answer in words; hits stand in lines of their own.
    pub fn words(&self) -> String {
        match self {
            Answer::Opened(window) => format!("window {window}"),
            Answer::Counted => "counted".to_string(),
            Answer::Closed => "closed".to_string(),
            Answer::Removed => "removed".to_string(),
            Answer::Flushed => "flushed".to_string(),
            Answer::Stepped => "stepped".to_string(),
            Answer::Found { hits, taken } => format!(
                "{}, {} taken",
                text::count(hits.len(), "hit"),
                text::count(*taken, "posting")
            ),
            Answer::Refused(number) => refused(*number),
        }
    }

    /// The lines for the hits, if it has any.
    pub fn hits(&self) -> impl Iterator<Item = String> {
        let hits: &[(u32, u32)] = match self {
            Answer::Found { hits, .. } => hits,
            _ => &[],
        };
        hits.iter()
            .map(|(window, score)| format!("window {window}  score {score}"))
    }

    /// The answer in one line.
    pub fn whole(&self) -> String {
        let hits: Vec<String> = self.hits().collect();
        if hits.is_empty() {
            return self.words();
        }
        format!("{}: {}", self.words(), hits.join(", "))
    }

    /// The same but for the postings taken, which tell of the card and not of the windows.
    pub fn listing(&self) -> Answer {
        let mut answer = self.clone();
        if let Answer::Found { taken, .. } = &mut answer {
            *taken = 0;
        }
        answer
    }
}

/// A refusal in words.
pub fn refused(number: u32) -> String {
    let sentence = Refusal::of_number(number).map_or("no known refusal", Refusal::sentence);
    format!("refused {number}: {sentence}")
}

/// An engine that commands are given to.
pub trait Engine {
    /// Obeys a command.
    fn obey(&mut self, command: &Command) -> Answer {
        match command {
            Command::Open => answer(self.open(), Answer::Opened),
            Command::Event(identifier) => done(self.event(identifier), Answer::Counted),
            Command::Close => done(self.close(), Answer::Closed),
            Command::Remove(window) => done(self.remove(*window), Answer::Removed),
            Command::Flush => done(self.flush(), Answer::Flushed),
            Command::Step => done(self.step(), Answer::Stepped),
            Command::Query(query) => self.ask(query),
        }
    }

    /// Answers a query.
    fn ask(&self, query: &Query) -> Answer {
        answer(self.find(query), |(hits, taken)| Answer::Found {
            hits,
            taken,
        })
    }

    fn open(&mut self) -> Result<u32, u32>;
    fn event(&mut self, identifier: &[u8]) -> Result<(), u32>;
    fn close(&mut self) -> Result<(), u32>;
    fn remove(&mut self, window: u32) -> Result<(), u32>;
    fn flush(&mut self) -> Result<(), u32>;
    fn step(&mut self) -> Result<(), u32>;
    /// Window and score of each hit, and the postings taken.
    fn find(&self, query: &Query) -> Result<(Vec<(u32, u32)>, u64), u32>;
}

fn answer<T>(result: Result<T, u32>, done: impl FnOnce(T) -> Answer) -> Answer {
    result.map_or_else(Answer::Refused, done)
}

fn done(result: Result<(), u32>, done: Answer) -> Answer {
    answer(result, |()| done)
}

/// The sizes of a probe's buffers.
#[derive(Clone, Copy, PartialEq, Eq, Debug)]
pub struct Sizes {
    pub blocks: usize,
    pub entries: usize,
}

impl Default for Sizes {
    /// Those of the command program.
    fn default() -> Self {
        Sizes {
            blocks: 16,
            entries: 64,
        }
    }
}

impl Sizes {
    /// A card and a register of these sizes.
    fn buffers(self) -> (Vec<u8>, Vec<u8>) {
        let card = vec![0; self.blocks * gemsilver::BLOCK];
        let register = vec![0; self.entries * gemsilver::ENTRY];
        (card, register)
    }
}

/// A fresh probe of the proved engine; refused where a size is out of its limits.
pub fn proved(sizes: Sizes) -> Result<Probe<Vec<u8>>, Refusal> {
    // Greater ones may not even find memory.
    if sizes.blocks > 4_096 || sizes.entries > 1_024 {
        return Err(Refusal::WrongLength);
    }
    let (card, register) = sizes.buffers();
    Probe::start(vec![0; IMAGE], card, register)
}

impl<B: AsRef<[u8]> + AsMut<[u8]>> Engine for Probe<B> {
    fn open(&mut self) -> Result<u32, u32> {
        self.open().map_err(Refusal::number)
    }

    fn event(&mut self, identifier: &[u8]) -> Result<(), u32> {
        self.event(identifier).map_err(Refusal::number)
    }

    fn close(&mut self) -> Result<(), u32> {
        self.close().map_err(Refusal::number)
    }

    fn remove(&mut self, window: u32) -> Result<(), u32> {
        self.remove(window).map_err(Refusal::number)
    }

    fn flush(&mut self) -> Result<(), u32> {
        self.flush().map_err(Refusal::number)
    }

    fn step(&mut self) -> Result<(), u32> {
        self.step().map_err(Refusal::number)
    }

    fn find(&self, query: &Query) -> Result<(Vec<(u32, u32)>, u64), u32> {
        found_by(self, query)
    }
}

/// A query answered by a probe that need not be lent for writing.
pub fn found_by<B: AsRef<[u8]>>(
    probe: &Probe<B>,
    query: &Query,
) -> Result<(Vec<(u32, u32)>, u64), u32> {
    let identifiers: Vec<Identifier> = query
        .identifiers
        .iter()
        .map(|bytes| bytes[..].into())
        .collect();
    let mut hits = vec![Hit::default(); query.places];
    let found = probe
        .query(&identifiers, query.stretch, &mut hits)
        .map_err(Refusal::number)?;
    let listed = hits[..found.hits].iter();
    let listed = listed.map(|hit| (hit.window, hit.score)).collect();
    Ok((listed, found.taken))
}

impl Engine for Ledger {
    fn open(&mut self) -> Result<u32, u32> {
        self.open().map_err(u32::from)
    }

    fn event(&mut self, identifier: &[u8]) -> Result<(), u32> {
        self.event(identifier).map_err(u32::from)
    }

    fn close(&mut self) -> Result<(), u32> {
        self.close().map_err(u32::from)
    }

    fn remove(&mut self, window: u32) -> Result<(), u32> {
        self.remove(window).map_err(u32::from)
    }

    fn flush(&mut self) -> Result<(), u32> {
        self.flush().map_err(u32::from)
    }

    fn step(&mut self) -> Result<(), u32> {
        self.step().map_err(u32::from)
    }

    fn find(&self, query: &Query) -> Result<(Vec<(u32, u32)>, u64), u32> {
        let identifiers = slices(&query.identifiers);
        let Stretch { first, last } = query.stretch;
        let windows = first.into()..=last.into();
        let reply = self.query(&identifiers, windows, query.places);
        let reply = reply.map_err(u32::from)?;
        Ok((reply.hits, reply.taken as u64))
    }
}

fn slices(identifiers: &[Vec<u8>]) -> Vec<&[u8]> {
    identifiers.iter().map(Vec::as_slice).collect()
}

/// The second engine with one fault, or without.
pub struct Second {
    fault: Option<Fault>,
    state: State,
    card: Vec<u8>,
    register: Vec<u8>,
}

impl Second {
    /// A fresh one, of sizes that the proved engine has taken.
    pub fn new(fault: Option<Fault>, sizes: Sizes) -> Self {
        let (mut card, mut register) = sizes.buffers();
        let (state, _) = engine::start(&mut card, &mut register);
        Second {
            fault,
            state,
            card,
            register,
        }
    }
}

fn number(refusal: second::refusal::Refusal) -> u32 {
    refusal.number().into()
}

impl Engine for Second {
    fn open(&mut self) -> Result<u32, u32> {
        engine::open(&mut self.state).map(u32::from).map_err(number)
    }

    fn event(&mut self, identifier: &[u8]) -> Result<(), u32> {
        let (state, card, register) = (&mut self.state, &mut self.card, &mut self.register);
        match self.fault {
            Some(fault) => wrong::event(fault, state, card, register, identifier),
            None => engine::event(state, card, register, identifier),
        }
        .map_err(number)
    }

    fn close(&mut self) -> Result<(), u32> {
        engine::close(&mut self.state).map_err(number)
    }

    fn remove(&mut self, window: u32) -> Result<(), u32> {
        engine::remove(&mut self.state, &mut self.card, window).map_err(number)
    }

    fn flush(&mut self) -> Result<(), u32> {
        engine::flush(&mut self.state, &mut self.card).map_err(number)
    }

    fn step(&mut self) -> Result<(), u32> {
        match self.fault {
            Some(fault) => wrong::step(fault, &mut self.state, &mut self.card),
            None => engine::step(&mut self.state, &mut self.card),
        }
        .map_err(number)
    }

    fn find(&self, query: &Query) -> Result<(Vec<(u32, u32)>, u64), u32> {
        let ids = slices(&query.identifiers);
        let Stretch { first, last } = query.stretch;
        let stretch = second::stretch::Stretch { first, last };
        let mut hits = vec![second::state::Hit::default(); query.places];
        let (state, card, register) = (&self.state, &self.card, &self.register);
        let found = match self.fault {
            Some(fault) => wrong::query(fault, state, card, register, &ids, stretch, &mut hits),
            None => engine::query(state, card, register, &ids, stretch, &mut hits),
        }
        .map_err(number)?;
        let listed = hits[..usize::from(found.hits)].iter();
        let listed = listed.map(|hit| (hit.window.into(), hit.score)).collect();
        Ok((listed, found.taken.into()))
    }
}
