//! Calls as values, made on any state, card and register.

use crate::made::{expected, told};
use crate::planned::laid_out;
use crate::twin::check_byte_rule;
use second::commands::Probe;
use second::engine::{self, Forecast, Mean};
use second::refusal::Refusal;
use second::state::Hit;
use second::stretch::Stretch;
use std::collections::BTreeSet;

#[derive(Clone, Debug)]
pub enum Call {
    Open,
    Event(Vec<u8>),
    Close,
    Remove(u32),
    RemoveAll(Vec<u32>),
    Flush,
    Step,
    /// Identifiers, a stretch, and the places in the list.
    Query(Vec<Vec<u8>>, Stretch, usize),
    Mean(Vec<u8>),
    /// The entries of a plan, and how many each window has.
    Forecast(Vec<u8>, Vec<u32>),
}

/// Makes a call and gives the refusal, if any. A refusal must change nothing,
/// and the bytes of the card must follow their rule.
pub fn make(probe: &mut Probe, call: &Call) -> Result<(), u8> {
    let before = probe.clone();
    let result = call_engine(probe, call).map_err(Refusal::number);
    if result.is_err() {
        assert!(*probe == before, "a refused {call:?} changed something");
    }
    check_byte_rule(&before.card, &probe.card);
    result
}

fn call_engine(probe: &mut Probe, call: &Call) -> Result<(), Refusal> {
    let Probe {
        state,
        card,
        register,
    } = probe;
    match call {
        Call::Open => engine::open(state).map(drop),
        Call::Event(identifier) => engine::event(state, card, register, identifier),
        Call::Close => engine::close(state),
        Call::Remove(window) => engine::remove(state, card, *window),
        Call::RemoveAll(windows) => remove_all(probe, windows),
        Call::Flush => engine::flush(state, card),
        Call::Step => engine::step(state, card),
        Call::Query(names, stretch, places) => {
            let ids: Vec<&[u8]> = names.iter().map(|name| &name[..]).collect();
            let untouched = Hit {
                window: 0xabcd,
                score: 0xdead_beef,
            };
            let mut hits = vec![untouched; *places];
            let found = engine::query(state, card, register, &ids, *stretch, &mut hits);
            let listed = found.map_or(0, |found| usize::from(found.hits));
            assert!(hits[listed..].iter().all(|hit| *hit == untouched));
            found.map(drop)
        }
        Call::Mean(name) => mean_of(probe, name).map(drop),
        Call::Forecast(plan, counts) => forecast_of(probe, plan, counts).map(drop),
    }
}

/// Removes windows together, which must come to what single removals come to.
fn remove_all(probe: &mut Probe, windows: &[u32]) -> Result<(), Refusal> {
    let (after, expected) = one_by_one(probe, windows);
    let result = engine::remove_all(&mut probe.state, &mut probe.card, windows);
    assert_eq!(result.map_err(Refusal::number), expected, "{windows:?}");
    assert!(*probe == after, "other than one by one: {windows:?}");
    result
}

/// What windows removed together must leave and answer, by single removals alone.
pub fn one_by_one(probe: &Probe, windows: &[u32]) -> (Probe, Result<(), u8>) {
    let refused = |number| (probe.clone(), Err(number));
    // Window 0 has no counts: its removal judges what is read for every list.
    for &window in [0].iter().chain(windows) {
        if let number @ 1..=3 = outcome(probe, &Call::Remove(window)) {
            return refused(number);
        }
    }
    let different: BTreeSet<&u32> = windows.iter().collect();
    if windows.is_empty() || windows.len() > 32 || different.len() < windows.len() {
        return refused(16);
    }
    let mut after = probe.clone();
    for &window in windows {
        if let Err(number) = make(&mut after, &Call::Remove(window)) {
            return refused(number);
        }
    }
    (after, Ok(()))
}

/// The mean of an identifier. A query of it alone over all windows is refused for the same
/// reason, or lists the windows of the mean as far as it has places.
pub fn mean_of(probe: &Probe, name: &[u8]) -> Result<Mean, Refusal> {
    let (state, card, register) = (&probe.state, &probe.card, &probe.register);
    let mut hits = [Hit::default(); 32];
    let found = engine::query(state, card, register, &[name], Stretch::ALL, &mut hits);
    let answer = engine::mean(state, card, register, name);
    let windows = match answer {
        Err(Refusal::Uncounted) => Ok(0),
        other => other.map(|mean| usize::from(mean.windows)),
    };
    let listed = found.map(|found| usize::from(found.hits));
    assert_eq!(windows.map(|windows| windows.min(hits.len())), listed);
    if let Ok(mean) = answer {
        assert!(mean.remainder < mean.windows, "{mean:?}");
    }
    answer
}

/// What a plan would come to, which must be what its calls come to.
pub fn forecast_of(probe: &Probe, plan: &[u8], counts: &[u32]) -> Result<Forecast, Refusal> {
    let answer = engine::forecast(&probe.state, &probe.register, plan, counts);
    let by_calls = expected(probe, plan, counts);
    assert_eq!(answer.map(told).map_err(Refusal::number), by_calls);
    answer
}

/// The refusal of a call on a copy; 0 if it is done.
pub fn outcome(probe: &Probe, call: &Call) -> u8 {
    make(&mut probe.clone(), call).err().unwrap_or(0)
}

pub fn event(name: &[u8]) -> Call {
    Call::Event(name.to_vec())
}

pub fn query(names: &[&[u8]]) -> Call {
    query_in(names, Stretch::ALL)
}

pub fn query_in(names: &[&[u8]], stretch: Stretch) -> Call {
    let names = names.iter().map(|name| name.to_vec()).collect();
    Call::Query(names, stretch, 4)
}

pub fn mean(name: &[u8]) -> Call {
    Call::Mean(name.to_vec())
}

pub fn forecast(windows: &[Vec<Vec<u8>>]) -> Call {
    let (plan, counts) = laid_out(windows);
    Call::Forecast(plan, counts)
}
