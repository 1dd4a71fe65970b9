//! Merges up to the highest level, and of that level into itself.

use crate::build::build;
use crate::history::name;
use crate::rng::Rng;
use crate::twin::Twin;
use second::engine;
use second::ledger::Ledger;
use second::ledger::account::{Entry, Pairs, Part};
use std::cmp::Reverse;

const NAMES: usize = 12;

/// Levels of a list that one more flush sets in motion from bottom to top.
fn levels() -> Vec<usize> {
    let mut levels = vec![5, 5];
    for level in [4, 3, 2, 1, 0] {
        levels.extend([level; 7]);
    }
    levels
}

/// A ledger whose windows are spread over partitions of all levels, split and
/// in part removed again.
fn spread(rng: &mut Rng) -> Ledger {
    let levels = levels();
    let mut ledger = Ledger::new(160, 16);
    ledger.known = (0..NAMES).map(name).collect();
    ledger.last = 500;
    let mut parts = vec![Pairs::new(); levels.len()];
    for window in 1..=ledger.last {
        let is_live = rng.one_in(2);
        for id in 0..NAMES {
            if rng.one_in(2) {
                let count = spread_pair(&mut parts, (id, Reverse(window)), is_live, rng);
                let counts = ledger.live.entry(window).or_default();
                counts.insert(name(id), count);
            }
        }
        if !is_live {
            ledger.live.remove(&window);
        }
    }
    let parts = levels.into_iter().zip(&parts);
    ledger.account.parts = parts
        .map(|(level, pairs)| Part {
            level,
            entries: entries(pairs),
        })
        .collect();
    ledger
}

/// Spreads one pair's count over two or more partitions, older ones rather
/// than newer ones, and takes it back in the newest if the window is not live.
fn spread_pair(
    parts: &mut [Pairs],
    pair: (usize, Reverse<u32>),
    is_live: bool,
    rng: &mut Rng,
) -> u32 {
    let mut places: Vec<usize> = (0..2 + rng.below(3))
        .map(|_| rng.below(parts.len()).min(rng.below(parts.len())))
        .collect();
    places.sort_unstable();
    let newest = places.pop().unwrap();
    let mut total = 0;
    for place in places {
        let count = 1 + rng.below(5000) as i64;
        *parts[place].entry(pair).or_insert(0) += count;
        total += count;
    }
    if !is_live {
        *parts[newest].entry(pair).or_insert(0) -= total;
    }
    total as u32
}

fn entries(pairs: &Pairs) -> Vec<Entry> {
    let list = pairs.iter().filter(|(_, sum)| **sum != 0);
    list.map(|(pair, &sum)| (pair.0, pair.1.0, sum)).collect()
}

#[test]
fn one_flush_sets_all_levels_in_motion() {
    let mut rng = Rng(5);
    let ledger = spread(&mut rng);
    let probe = build(&ledger);
    let mut twin = Twin::of(probe.state, probe.card, probe.register, ledger);
    twin.open().unwrap();
    twin.event(&name(3)).unwrap();
    assert_eq!(twin.step(), Err(13));
    twin.flush().unwrap();
    while twin.step().is_ok() {
        if rng.one_in(10) {
            let ids = [rng.below(NAMES), NAMES + 1].map(name);
            twin.query(&[&ids[0], &ids[1]], 32).unwrap();
            twin.mean(&ids[0]).unwrap();
            assert_eq!(twin.mean(&ids[1]), Err(15));
        }
    }
    assert_eq!(twin.state.partitions.used, 1);
    assert_eq!(twin.state.partitions.records[0].level, 5);
    let merges = |level: usize| twin.tally.sights[&format!("merges to level {level}")];
    // The second one to level 5 takes three of level 5.
    assert_eq!([1, 2, 3, 4, 5].map(merges), [1, 1, 1, 1, 2]);
    assert!(twin.tally.sights["outputs of several blocks"] >= 2);
    let oldest: Vec<u32> = twin.ledger.live.keys().copied().take(32).collect();
    twin.remove_all(&oldest).unwrap();
    assert_eq!(twin.state.partitions.used, 2);
    twin.tally.print("From level 0 to 5:");
}

/// With several levels due the highest goes first, and its oldest partitions.
#[test]
fn the_highest_due_level_goes_first() {
    let mut ledger = Ledger::new(80, 2);
    ledger.known = vec![name(0)];
    let levels = [vec![3; 8], vec![1; 8], vec![0; 10]].concat();
    for level in levels {
        ledger.last += 1;
        let entries = vec![(0, ledger.last, 1)];
        ledger.account.parts.push(Part { level, entries });
        ledger.live.insert(ledger.last, [(name(0), 1)].into());
    }
    let probe = build(&ledger);
    let mut twin = Twin::of(probe.state, probe.card, probe.register, ledger);
    let expected = [
        [vec![4], vec![1; 8], vec![0; 10]].concat(),
        [vec![4, 2], vec![0; 10]].concat(),
        vec![4, 2, 1, 0, 0],
    ];
    for levels in expected {
        twin.step().unwrap();
        let records = twin.state.partitions.to_list();
        assert!(records.iter().map(|record| record.level).eq(levels));
    }
    assert_eq!(twin.step(), Err(13));
}

/// Three of level 5 grow flush by flush. Only answers are compared at each
/// call; everything else now and then.
#[test]
fn a_long_history_reaches_the_highest_level() {
    let mut probe = build(&Ledger::new(88, 5));
    let mut ledger = Ledger::new(88, 5);
    let (state, card) = (&mut probe.state, &mut probe.card);
    let mut last_merges = 0;
    for flush in 0..3 * 8usize.pow(5) {
        if flush % 100 == 0 {
            turn_over(state, card, &mut ledger);
        }
        let id = name(flush % 5);
        assert_eq!(engine::event(state, card, &mut probe.register, &id), Ok(()));
        assert_eq!(ledger.event(&id), Ok(()));
        assert_eq!(engine::flush(state, card), Ok(()));
        assert_eq!(ledger.flush(), Ok(()));
        while ledger.account.due_inputs().is_some() {
            let top = ledger.account.parts.iter().filter(|p| p.level == 5).count();
            last_merges += usize::from(top == 3);
            assert_eq!(engine::step(state, card), Ok(()));
            assert_eq!(ledger.step(), Ok(()));
        }
        if flush % 4096 == 4095 {
            let register = probe.register.clone();
            let mut twin = Twin::of(state.clone(), card.clone(), register, ledger.clone());
            twin.query(&[&id], 32).unwrap();
            twin.mean(&id).unwrap();
        }
    }
    assert!(last_merges > 0);
}

/// Removes an old window, closes the open one and opens the next.
fn turn_over(state: &mut second::state::State, card: &mut [u8], ledger: &mut Ledger) {
    if ledger.live.len() > 10 {
        let oldest = *ledger.live.keys().next().unwrap();
        assert_eq!(engine::remove(state, card, oldest), Ok(()));
        assert_eq!(ledger.remove(oldest), Ok(()));
    }
    if ledger.close().is_ok() {
        assert_eq!(engine::close(state), Ok(()));
    }
    let number = ledger.open().unwrap();
    assert_eq!(engine::open(state).map(u32::from), Ok(number));
}
