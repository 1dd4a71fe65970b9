//! Merges up to the highest level, and of that level into itself; the largest card.

use crate::engines::{Call, Probe};
use crate::history::{any_query, name};
use crate::pair::Pair;
use crate::parts::{Mix, build};
use crate::rng::Rng;
use crate::tally::Tally;
use crate::words::{at, put};
use second::image;
use second::state::{Posting, Windows};

/// Levels of a list that one more flush sets in motion from bottom to top.
fn brink() -> Vec<u16> {
    let mut levels = vec![5, 5];
    for level in [4, 3, 2, 1, 0] {
        levels.extend([level; 7]);
    }
    levels
}

/// A probe with partitions of these levels, no open window and one posting to flush.
fn ready(mix: &Mix, rng: &mut Rng) -> Probe {
    let mut probe = build(mix, rng);
    let mut state = image::read(&probe.image).expect("an image");
    state.windows = Windows {
        last: 500,
        live: 100,
        open: 0,
        events: 0,
    };
    state.listed = Default::default();
    state.buffer = Default::default();
    state.buffer.used = 1;
    state.buffer.postings[0] = Posting {
        id: 1,
        window: 499,
        count: 3,
    };
    probe.image = image::write(&state);
    probe
}

/// Steps to the end, with calls in between; gives how many steps it took.
fn settle(pair: &mut Pair, rng: &mut Rng, tally: &mut Tally) -> usize {
    let mut steps = 0;
    while pair.make(&Call::Step, tally).is_ok() {
        steps += 1;
        if rng.one_in(8) {
            let window = 1 + rng.below(40) as u32;
            let between = [any_query(rng, 8, 40), Call::Remove(window)];
            let _ = pair.make(&rng.pick(&between), tally);
        }
    }
    steps
}

#[test]
fn both_engines_merge_alike_up_to_the_highest_level() {
    let mut tally = Tally::default();
    let mut rng = Rng(5);
    let mut removed = 0;
    for round in 0..6 {
        let mix = Mix {
            blocks: 160,
            entries: 16,
            ids: (0..4 + round).collect(),
            windows: 40,
            apart: 0,
            spread: 1 + rng.below(3),
            sizes: vec![1, 2, 3, 100],
            levels: brink(),
            hollow: usize::MAX,
            cancels: false,
        };
        let mut pair = Pair::of(ready(&mix, &mut rng));
        pair.make(&Call::Flush, &mut tally).expect("there is room");
        assert!(settle(&mut pair, &mut rng, &mut tally) > 20);
        let state = image::read(&pair.probe().image).expect("an image");
        assert_eq!(state.partitions.used, 1);
        assert_eq!(state.partitions.records[0].level, 5);
        // The first windows go together, as many as have a count above 0.
        let first = |length| Call::RemoveAll((1..=length).collect());
        let mut lengths = (1..=32).rev();
        let done = lengths.find(|&length| pair.make(&first(length), &mut tally).is_ok());
        removed += done.unwrap_or(0);
    }
    tally.print("levels");
    assert!(removed > 20, "{removed} windows of the highest level");
    tally.expect("step", &[0], 200);
    tally.expect("mean", &[0], 20);
}

/// Partitions grow flush by flush, one event each, until three of level 5 are merged into one.
#[test]
fn both_engines_agree_on_a_long_history() {
    let mut tally = Tally::default();
    let mut pair = Pair::start(88, 5, &mut tally);
    let mut oldest = 1;
    for flush in 0..3 * 8usize.pow(5) {
        if flush % 100 == 0 {
            let _ = pair.make(&Call::Close, &mut tally);
            let [window, ..] = pair.make(&Call::Open, &mut tally).expect("a number");
            if window > u64::from(oldest) + 10 {
                pair.make(&Call::Remove(oldest), &mut tally)
                    .expect("it is live");
                oldest += 1;
            }
        }
        let event = Call::Event(name(flush % 5));
        pair.make(&event, &mut tally).expect("there is room");
        pair.make(&Call::Flush, &mut tally).expect("there is room");
        if flush % 8 == 7 {
            while pair.make(&Call::Step, &mut tally).is_ok() {}
        }
        if flush % 1_000 == 999 {
            // A closed window has 100 events, of five names in turn.
            let mean = Call::Mean(name(flush % 5));
            let [quotient, remainder, ..] = pair.make(&mean, &mut tally).expect("a mean");
            assert_eq!((quotient, remainder), (20, 0));
        }
    }
    tally.print("long history");
    let state = image::read(&pair.probe().image).expect("an image");
    assert_eq!(state.partitions.used, 1);
    assert_eq!(state.partitions.records[0].level, 5);
    tally.expect("step", &[0], 10_000);
}

/// The largest card, with outputs of several blocks that go round its end.
#[test]
fn both_engines_agree_on_the_largest_card() {
    let mut tally = Tally::default();
    let mut rng = Rng(11);
    let mix = Mix {
        blocks: 4_096,
        entries: 1_024,
        ids: (0..10).collect(),
        windows: 300,
        apart: 0,
        spread: 2,
        sizes: vec![1, 2, 3],
        levels: vec![5, 5, 5, 1, 0, 0],
        hollow: usize::MAX,
        cancels: false,
    };
    let mut probe = ready(&mix, &mut rng);
    put(&mut probe.image, at::TAKEN, 4_094);
    let mut pair = Pair::of(probe);
    pair.make(&Call::Flush, &mut tally).expect("there is room");
    assert!(settle(&mut pair, &mut rng, &mut tally) > 50);
    tally.print("largest card");
}
