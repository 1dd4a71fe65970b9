//! Random histories: calls at random, weighted by a plan.

use crate::engines::Call;
use crate::pair::{Pair, really};
use crate::planned::{any_windows, damage_plan, laid_out, read_back};
use crate::rng::Rng;
use crate::tally::Tally;
use crate::words::{at, word};
use second::stretch::Stretch;

/// How likely each kind of call is, against the others.
#[derive(Clone, Copy)]
pub struct Odds {
    /// Open a window, or close the open one.
    pub turn: usize,
    pub event: usize,
    pub remove: usize,
    /// Remove several windows together.
    pub together: usize,
    pub flush: usize,
    pub step: usize,
    pub query: usize,
    /// A call that is likely to be refused.
    pub odd: usize,
}

#[derive(Clone, Copy)]
pub struct Plan {
    pub blocks: usize,
    pub entries: usize,
    pub calls: usize,
    /// How many different identifiers are used.
    pub names: usize,
    /// Windows are removed when more than this are live.
    pub keep: usize,
    pub odds: Odds,
}

/// The identifier of a number: of 1 to 64 bytes, with common beginnings, zeros and high bytes.
pub fn name(number: usize) -> Vec<u8> {
    let end = (number as u16).to_le_bytes();
    let start = match number % 6 {
        0 if number < 256 => return vec![number as u8],
        0 => vec![],
        1 => b"SIXTEEN IN FRONT".to_vec(),
        2 => vec![255; 62],
        3 => vec![0; 1 + number / 6 % 7],
        4 => vec![b'A'; number / 6 % 63],
        _ => vec![128 + (number % 100) as u8; 14 + number / 6 % 4],
    };
    [start, end.to_vec()].concat()
}

/// An identifier of the plan, one that is not, or no identifier.
pub fn any_name(rng: &mut Rng, names: usize) -> Vec<u8> {
    match rng.below(30) {
        0 => vec![rng.next() as u8; rng.pick(&[0, 1, 16, 64, 65, 66, 300])],
        1 => {
            let mut near = name(rng.below(names));
            near.pop();
            near
        }
        _ => name(rng.below(names)),
    }
}

/// A query of up to 7 identifiers, some twice, with up to 40 places, over a stretch of windows up to a little more than `last`.
pub fn any_query(rng: &mut Rng, names: usize, last: u32) -> Call {
    let mut ids: Vec<Vec<u8>> = (0..rng.pick(&[0, 1, 1, 2, 2, 3, 3, 4, 5, 5, 6, 7]))
        .map(|_| any_name(rng, names))
        .collect();
    if rng.one_in(15) && !ids.is_empty() {
        let (from, to) = (rng.below(ids.len()), rng.below(ids.len()));
        ids[to] = ids[from].clone();
    }
    let places = match rng.below(10) {
        0 => rng.pick(&[0, 1, 32, 33]),
        1 => rng.below(41),
        _ => 1 + rng.below(32),
    };
    let bytes = 8 * places + if rng.one_in(4) { rng.below(8) } else { 0 };
    let list = (0..bytes).map(|_| rng.next() as u8).collect();
    // Drawn from a copy, so that the stretch moves nothing else.
    Call::Query(ids, any_stretch(&mut Rng(rng.0), last), list)
}

/// A stretch of the windows up to a last one: all, one, those from or up to one, or some; now and then an empty one or one whose first
/// exceeds its last.
pub fn any_stretch(rng: &mut Rng, last: u32) -> Stretch {
    let last = last.min(65_533) as usize;
    let window = |rng: &mut Rng| rng.below(last + 2) as u16;
    let (one, other) = (window(rng), window(rng));
    let (first, last) = match rng.below(12) {
        0..4 => (1, u16::MAX),
        4 => (one, one),
        5 => (one, u16::MAX),
        6 => (rng.pick(&[0, 1]), one),
        7 => rng.pick(&[(0, 0), (1, 0), (65_535, 65_535), (65_535, 1)]),
        8 => (one.max(1), one.saturating_sub(1)),
        9 => (rng.next() as u16, rng.next() as u16),
        _ => (one.min(other), one.max(other)),
    };
    Stretch { first, last }
}

/// A list of some of these windows, now and then with another one or one twice.
pub fn any_list(rng: &mut Rng, mut windows: Vec<u32>) -> Vec<u32> {
    rng.shuffle(&mut windows);
    windows.truncate(rng.pick(&[0, 1, 2, 2, 3, 3, 5, 8, 32, 32, 33, 40]));
    if rng.one_in(4) {
        let odd = match rng.below(4) {
            0 => rng.pick(&[0, 65_535, 65_536, u32::MAX]),
            1 => 65_536 + windows.first().copied().unwrap_or(1),
            2 => 1 + rng.below(50) as u32,
            _ => windows.last().copied().unwrap_or(0),
        };
        windows.insert(rng.below(windows.len() + 1), odd);
    }
    windows
}

/// A forecast of a plan, now and then of one that is damaged.
pub fn any_plan(rng: &mut Rng, names: usize) -> Call {
    let (mut plan, mut counts) = laid_out(&any_windows(rng, names));
    if rng.one_in(6) {
        damage_plan(&mut plan, &mut counts, rng);
    }
    Call::Forecast(plan, counts)
}

/// A history on its way.
pub struct History {
    pub pair: Pair,
    pub rng: Rng,
    /// The windows with events that are not removed.
    live: Vec<u32>,
}

impl History {
    pub fn new(plan: &Plan, seed: u64, tally: &mut Tally) -> Self {
        History {
            pair: Pair::start(plan.blocks, plan.entries, tally),
            rng: Rng(seed),
            live: Vec::new(),
        }
    }

    /// Makes a call, and keeps the list of live windows.
    pub fn make(&mut self, call: &Call, tally: &mut Tally) {
        let open = self.word(at::OPEN);
        if self.pair.make(call, tally).is_err() {
            return;
        }
        match call {
            Call::Event(_) if self.live.last() != Some(&open) => self.live.push(open),
            Call::Remove(window) => self.live.retain(|live| live != window),
            Call::RemoveAll(windows) => self.live.retain(|live| !windows.contains(live)),
            _ => {}
        }
    }

    /// A number of the state.
    fn word(&self, place: usize) -> u32 {
        word(&self.pair.probe().image, place)
    }

    /// Makes the next call.
    pub fn act(&mut self, plan: &Plan, tally: &mut Tally) {
        let odds = &plan.odds;
        let kinds: [(usize, fn(&mut Self, &Plan) -> Call); 8] = [
            (odds.turn, Self::turn),
            (odds.event, Self::event),
            (odds.remove, Self::remove),
            (odds.together, Self::together),
            (odds.flush, |_, _| Call::Flush),
            (odds.step, Self::step),
            (odds.query, |history, plan| {
                let last = history.word(at::LAST);
                any_query(&mut history.rng, plan.names + 2, last)
            }),
            (odds.odd, Self::odd),
        ];
        let mut place = self.rng.below(kinds.iter().map(|kind| kind.0).sum());
        for (weight, choose) in kinds {
            if place < weight {
                let call = choose(self, plan);
                return self.make(&call, tally);
            }
            place -= weight;
        }
    }

    /// Asks for what a plan would come to, which is what its calls come to on this card.
    pub fn forecast(&mut self, rng: &mut Rng, plan: &Plan, tally: &mut Tally) {
        // Mostly of names that the register has room for.
        let call = any_plan(rng, plan.names.min(plan.entries));
        let answer = self.pair.make(&call, tally);
        if let (Ok(told), Call::Forecast(plan, counts)) = (answer, &call) {
            let windows = read_back(plan, counts).expect("it was no malformed one");
            let made = really(self.pair.probe().clone(), &windows);
            assert_eq!(told, made, "{call:?}");
        }
    }

    fn turn(&mut self, _: &Plan) -> Call {
        if self.word(at::OPEN) == 0 {
            Call::Open
        } else {
            Call::Close
        }
    }

    fn event(&mut self, plan: &Plan) -> Call {
        if self.word(at::OPEN) == 0 && !self.rng.one_in(20) {
            return Call::Open;
        }
        Call::Event(any_name(&mut self.rng, plan.names))
    }

    /// Removes an old window or any one.
    fn remove(&mut self, plan: &Plan) -> Call {
        if self.live.len() <= plan.keep {
            return self.event(plan);
        }
        let among = if self.rng.one_in(2) {
            1
        } else {
            self.live.len()
        };
        Call::Remove(self.live[self.rng.below(among)])
    }

    /// Removes several windows together.
    fn together(&mut self, plan: &Plan) -> Call {
        if self.live.len() <= plan.keep {
            return self.event(plan);
        }
        let mut rng = Rng(self.rng.next());
        self.any_list(&mut rng)
    }

    /// A list of live windows, now and then with the open one, one that is not live, or one twice.
    pub fn any_list(&self, rng: &mut Rng) -> Call {
        let open = self.word(at::OPEN);
        let mut live = self.live.clone();
        if !rng.one_in(6) {
            live.retain(|&window| window != open);
        }
        Call::RemoveAll(any_list(rng, live))
    }

    /// Steps, though less often where there are too few partitions for a merge.
    fn step(&mut self, plan: &Plan) -> Call {
        if self.word(at::PARTITIONS) < 8 && !self.rng.one_in(8) {
            return self.event(plan);
        }
        Call::Step
    }

    /// A call that does not go with the open window, or names a window that is none.
    fn odd(&mut self, _: &Plan) -> Call {
        let last = self.word(at::LAST);
        match self.rng.below(5) {
            0 => Call::Open,
            1 => Call::Close,
            2 => Call::Remove(self.rng.pick(&[0, 65_535, 65_536, u32::MAX])),
            3 => Call::Remove(last + self.rng.below(3) as u32),
            _ => Call::Remove(self.rng.below(last as usize + 1) as u32),
        }
    }
}
