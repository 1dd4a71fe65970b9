//! States at the edge of every rule: each number of an image at its limits, and the numbers that rules tie together.

use crate::engines::{Call, Probe};
use crate::history::{History, Odds, Plan};
use crate::pair::Pair;
use crate::parts::{build, mix};
use crate::rng::Rng;
use crate::tally::Tally;
use crate::words::{at, put, word};
use second::image;
use second::state::{Partition, Posting, State, Windows};
use std::collections::BTreeMap;

/// Judges a state by calls that read nothing else, and by a mean, an empty list of windows and an empty plan, which come no further than the
/// lengths.
fn judge(image: &[u8], tally: &mut Tally) {
    let mut pair = Pair::of(Probe {
        image: image.to_vec(),
        card: Vec::new(),
        register: Vec::new(),
    });
    let _ = pair.make(&Call::Mean(b"A".to_vec()), tally);
    let _ = pair.make(&Call::RemoveAll(Vec::new()), tally);
    let _ = pair.make(&Call::Forecast(Vec::new(), Vec::new()), tally);
    let _ = pair.make(&Call::Open, tally);
    let _ = pair.make(&Call::Close, tally);
}

/// Images of a history, one of each kind, and of a foreign state.
fn bases() -> Vec<Vec<u8>> {
    let plan = Plan {
        blocks: 40,
        entries: 12,
        calls: 1_200,
        names: 14,
        keep: 4,
        odds: Odds {
            turn: 8,
            event: 40,
            remove: 6,
            together: 0,
            flush: 12,
            step: 6,
            query: 0,
            odd: 0,
        },
    };
    let mut history = History::new(&plan, 8, &mut Tally::default());
    let mut kinds = BTreeMap::new();
    for turn in 0..plan.calls {
        history.act(&plan, &mut Tally::default());
        let image = &history.pair.probe().image;
        let kind = [at::OPEN, at::EVENTS, at::STEPS].map(|place| word(image, place) > 0);
        if turn > plan.calls / 4 {
            kinds.entry(kind).or_insert_with(|| image.clone());
        }
    }
    // With a merge in progress and without: no window, one without events, one with events.
    assert_eq!(kinds.len(), 6);
    let mut rng = Rng(3);
    let foreign = build(&mix(&mut rng), &mut rng).image;
    kinds.into_values().chain([foreign]).collect()
}

#[test]
fn both_engines_judge_every_number_alike() {
    let mut tally = Tally::default();
    for base in bases() {
        let last = word(&base, at::LAST);
        let values = [
            0, 1, 2, 5, 6, 64, 1_023, 1_024, 32_767, 32_768, 65_535, 65_536,
        ];
        for place in 0..716 {
            let old = word(&base, place);
            let around = [last.wrapping_sub(1), last, last + 1];
            let near = [old.wrapping_sub(1), old.wrapping_add(1)];
            for value in values.into_iter().chain(near).chain(around) {
                let mut image = base.clone();
                put(&mut image, place, value);
                judge(&image, &mut tally);
            }
        }
    }
    tally.print("every number");
    tally.expect("open", &[0, 1, 5], 1_000);
    tally.expect("close", &[0, 1], 1_000);
    tally.expect("mean", &[1, 2], 1_000);
    tally.expect("remove_all", &[1, 2], 1_000);
    tally.expect("forecast", &[1, 2], 1_000);
}

/// The last number given, N, the open window and its events, with postings of that window.
#[test]
fn both_engines_judge_the_windows_alike() {
    let mut tally = Tally::default();
    let numbers = [0, 1, 2, 3, 65_534, 65_535];
    let events = [0, 1, 2, 32_766, 32_767, 32_768];
    let mut state = State::default();
    state.lengths.card = 4 * 4_096;
    state.lengths.register = 65;
    for (last, live) in numbers.iter().flat_map(|&a| numbers.map(|b| (a, b))) {
        for (open, events) in numbers.iter().flat_map(|&a| events.map(|b| (a, b))) {
            state.windows = Windows {
                last,
                live,
                open,
                events,
            };
            for (window, count) in [(0, 0), (1, 1), (2, 2), (2, -1), (3, 32_767), (3, -32_768)] {
                let posting = Posting {
                    id: 0,
                    window,
                    count,
                };
                state.buffer.used = u16::from(window > 0);
                state.buffer.postings[0] = posting;
                judge(&image::write(&state), &mut tally);
            }
        }
    }
    tally.print("windows");
    tally.expect("open", &[0, 1, 5], 50);
    tally.expect("open", &[6], 10);
}

/// Lists of partitions: levels up to and past the most of each, rising ones, lengths up to and past the card's, a merge in progress.
#[test]
fn both_engines_judge_the_partitions_alike() {
    let mut tally = Tally::default();
    let mut rng = Rng(17);
    for _ in 0..4_000 {
        let mut state = State::default();
        state.lengths.card = 4 * 4_096;
        state.lengths.register = 65;
        let mut records = Vec::new();
        for (level, most) in [(5, 3), (4, 8), (3, 8), (2, 8), (1, 8), (0, 16)] {
            let count = match rng.below(12) {
                0..3 => most,
                3 => most + 1,
                4..7 => most - 1,
                _ => rng.below(most),
            };
            records.extend(vec![level; count]);
        }
        records.truncate(51);
        if rng.one_in(6) && records.len() > 1 {
            let place = 1 + rng.below(records.len() - 1);
            records.swap(place - 1, place);
        }
        state.partitions.used = records.len() as u16;
        for (record, level) in state.partitions.records.iter_mut().zip(records) {
            *record = Partition {
                first: rng.next() as u16,
                level: if rng.one_in(300) { 6 } else { level },
                length: 4 * 4_092 - rng.below(4) as u32 + u32::from(rng.one_in(100)),
                lowest: if rng.one_in(300) {
                    0
                } else {
                    rng.pick(&[1, 2, 7])
                },
                highest: if rng.one_in(300) {
                    6
                } else {
                    rng.pick(&[7, 8, 65_535])
                },
            };
        }
        state.taken = rng.pick(&[0, 3, 3, 3, 4]);
        if rng.one_in(2) {
            state.merge.first = rng.pick(&[0, 1, 65_534]);
            state.merge.length = rng.pick(&[0, 1, u32::MAX]);
            state.merge.steps = rng.pick(&[0, 1, u32::MAX]);
        }
        judge(&image::write(&state), &mut tally);
    }
    tally.print("partitions");
    tally.expect("open", &[0, 1], 300);
}
