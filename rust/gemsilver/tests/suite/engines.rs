//! Both engines behind one form: a call made on an image, a card and a register.

use crate::words::put;
use gemsilver::{Identifier, Refusal as Refused, Stretch as Lent, bytes};
use second::engine;
use second::image;
use second::refusal::Refusal;
use second::state::{Hit, State};
use second::stretch::Stretch;

/// All that calls read and write.
#[derive(Clone, PartialEq, Eq)]
pub struct Probe {
    pub image: Vec<u8>,
    pub card: Vec<u8>,
    pub register: Vec<u8>,
}

#[derive(Clone, Debug)]
pub enum Call {
    Start,
    Open,
    Close,
    Event(Vec<u8>),
    Flush,
    Remove(u32),
    RemoveAll(Vec<u32>),
    Step,
    /// The identifiers, the stretch, and what the list of hits holds before.
    Query(Vec<Vec<u8>>, Stretch, Vec<u8>),
    Mean(Vec<u8>),
    /// The entries of a plan, and how many each window has.
    Forecast(Vec<u8>, Vec<u32>),
}

impl Call {
    pub fn name(&self) -> &'static str {
        match self {
            Call::Start => "start",
            Call::Open => "open",
            Call::Close => "close",
            Call::Event(_) => "event",
            Call::Flush => "flush",
            Call::Remove(_) => "remove",
            Call::RemoveAll(_) => "remove_all",
            Call::Step => "step",
            Call::Query(..) => "query",
            Call::Mean(_) => "mean",
            Call::Forecast(..) => "forecast",
        }
    }

    /// What the list of hits holds before the call.
    pub fn list(&self) -> Vec<u8> {
        match self {
            Call::Query(_, _, list) => list.clone(),
            _ => Vec::new(),
        }
    }
}

/// What a call is answered with where it is done.
pub type Told = [u64; 6];

/// What a call answers: an open its window, a query its hits and postings taken, a mean its quotient, remainder and windows, a forecast its
/// flushes, blocks and entries and where it stops, and zeros for the rest; or a refusal's number.
pub type Answer = Result<Told, u32>;

pub const NOTHING: Told = [0; 6];

fn window(number: impl Into<u64>) -> Told {
    [number.into(), 0, 0, 0, 0, 0]
}

fn found(hits: impl Into<u64>, taken: impl Into<u64>) -> Told {
    [hits.into(), taken.into(), 0, 0, 0, 0]
}

fn mean(numbers: [impl Into<u64>; 3]) -> Told {
    let [quotient, remainder, windows] = numbers.map(Into::into);
    [quotient, remainder, windows, 0, 0, 0]
}

/// Flushes, blocks and entries, and window, event and refusal of the stop, if there is one.
fn forecast(numbers: [u64; 3], stop: Option<[u64; 3]>) -> Told {
    let [flushes, blocks, entries] = numbers;
    let [window, event, refusal] = stop.unwrap_or_default();
    [flushes, blocks, entries, window, event, refusal]
}

fn slices(names: &[Vec<u8>]) -> Vec<&[u8]> {
    names.iter().map(|name| &name[..]).collect()
}

/// Makes a call of the proved engine.
pub fn proved(probe: &mut Probe, call: &Call, hits: &mut [u8]) -> Answer {
    let Probe {
        image,
        card,
        register,
    } = probe;
    let answer = match call {
        Call::Start => bytes::start(image, card, register).map(|()| NOTHING),
        Call::Open => bytes::open(image).map(window),
        Call::Close => bytes::close(image).map(|()| NOTHING),
        Call::Event(name) => bytes::event(image, card, register, name).map(|()| NOTHING),
        Call::Flush => bytes::flush(image, card).map(|()| NOTHING),
        Call::Remove(window) => bytes::remove(image, card, *window).map(|()| NOTHING),
        Call::RemoveAll(windows) => bytes::remove_all(image, card, windows).map(|()| NOTHING),
        Call::Step => bytes::step(image, card).map(|()| NOTHING),
        Call::Query(names, Stretch { first, last }, _) => {
            let identifiers: Vec<Identifier> = names.iter().map(|name| name[..].into()).collect();
            let stretch = Lent {
                first: *first,
                last: *last,
            };
            bytes::query(image, card, register, &identifiers, stretch, hits)
                .map(|answer| found(answer.hits as u64, answer.taken))
        }
        Call::Mean(name) => bytes::mean(image, card, register, name)
            .map(|told| mean([told.quotient, told.remainder, told.windows])),
        Call::Forecast(plan, counts) => {
            bytes::forecast(image, register, plan, counts).map(|told| {
                let numbers = [told.flushes, told.blocks, told.entries].map(u64::from);
                let stop = told
                    .stop
                    .map(|stop| [stop.window, stop.event, stop.refusal.number().into()]);
                forecast(numbers, stop)
            })
        }
    };
    answer.map_err(Refused::number)
}

/// Makes a call of the second engine. Bytes that are no image are a state that breaks the rules.
pub fn second(probe: &mut Probe, call: &Call, hits: &mut [u8]) -> Answer {
    let broken = u32::from(Refusal::BrokenState.number());
    if let Call::Start = call {
        if probe.image.len() != image::LENGTH {
            return Err(broken);
        }
        let (state, result) = engine::start(&mut probe.card, &mut probe.register);
        probe.image = image::write(&state);
        return numbered(result.map(|()| NOTHING));
    }
    let mut state = image::read(&probe.image).ok_or(broken)?;
    let answer = on_state(&mut state, probe, call, hits);
    probe.image = image::write(&state);
    numbered(answer)
}

fn numbered(answer: Result<Told, Refusal>) -> Answer {
    answer.map_err(|refusal| refusal.number().into())
}

fn on_state(
    state: &mut State,
    probe: &mut Probe,
    call: &Call,
    hits: &mut [u8],
) -> Result<Told, Refusal> {
    let Probe { card, register, .. } = probe;
    match call {
        Call::Start => unreachable!("a start reads no state"),
        Call::Open => engine::open(state).map(window),
        Call::Close => engine::close(state).map(|()| NOTHING),
        Call::Event(name) => engine::event(state, card, register, name).map(|()| NOTHING),
        Call::Flush => engine::flush(state, card).map(|()| NOTHING),
        Call::Remove(window) => engine::remove(state, card, *window).map(|()| NOTHING),
        Call::RemoveAll(windows) => engine::remove_all(state, card, windows).map(|()| NOTHING),
        Call::Step => engine::step(state, card).map(|()| NOTHING),
        Call::Query(names, stretch, _) => {
            let mut list = vec![Hit::default(); hits.len() / 8];
            let names = slices(names);
            let answer = engine::query(state, card, register, &names, *stretch, &mut list)?;
            let listed = usize::from(answer.hits);
            for (place, hit) in hits.chunks_exact_mut(8).zip(&list[..listed]) {
                put(place, 0, hit.window.into());
                put(place, 1, hit.score);
            }
            Ok(found(answer.hits, answer.taken))
        }
        Call::Mean(name) => engine::mean(state, card, register, name)
            .map(|told| mean([told.quotient, told.remainder, told.windows])),
        Call::Forecast(plan, counts) => {
            engine::forecast(state, register, plan, counts).map(|told| {
                let numbers = [told.flushes, told.blocks, told.entries].map(|count| count as u64);
                let stop = told.stop.map(|stop| {
                    let number = stop.refusal.number().into();
                    [stop.window as u64, stop.event as u64, number]
                });
                forecast(numbers, stop)
            })
        }
    }
}
