//! Wrong engines on damaged and foreign states and cards: they refuse or bear
//! them, as the right engine does.

use crate::build::build;
use crate::damage::{PLAN, any_name, damage};
use crate::history::{act, any_stretch};
use crate::malformed::{card_of, part};
use crate::rng::Rng;
use crate::twin::{Twin, check_byte_rule};
use crate::wrong::{ask, ask_in, count, step};
use second::commands::Probe;
use second::engine;
use second::faults::Fault;
use second::ledger::Ledger;
use second::ledger::account::Entry;
use second::refusal::Refusal;
use second::state::Posting;
use second::stretch::Stretch;

/// Makes each call of each wrong engine; a refusal changes nothing. Gives how
/// many calls were done.
fn bear(probe: &Probe, rng: &mut Rng) -> usize {
    let length = rng.pick(&[0, 1, 1, 2, 3, 5, 6]);
    let names: Vec<Vec<u8>> = (0..length).map(|_| any_name(rng)).collect();
    let ids: Vec<&[u8]> = names.iter().map(|name| &name[..]).collect();
    let room = rng.pick(&[0, 1, 2, 5, 32, 33]);
    let stretch = any_stretch(rng, probe.state.windows.last);
    let identifier = any_name(rng);
    let mut done = 0;
    for fault in Fault::ALL {
        done += usize::from(ask_in(Some(fault), probe, &ids, stretch, room).is_ok());
        let mut stepped = probe.clone();
        let mut counted = probe.clone();
        let results = [
            step(fault, &mut stepped),
            count(fault, &mut counted, &identifier),
        ];
        for (after, result) in [stepped, counted].iter().zip(results) {
            assert!(
                result.is_ok() || after == probe,
                "a refusal changed something"
            );
            check_byte_rule(&probe.card, &after.card);
            done += usize::from(result.is_ok());
        }
    }
    done
}

#[test]
fn wrong_engines_refuse_or_bear_damage() {
    let mut rng = Rng(77);
    let mut done = 0;
    for _ in 0..4 {
        let mut twin = Twin::new(PLAN.blocks, PLAN.entries);
        for _ in 0..800 {
            act(&mut twin, &mut rng, &PLAN);
            let mut probe = twin.probe();
            for _ in 0..1 + rng.below(3) {
                damage(&mut probe, &mut rng);
            }
            done += bear(&probe, &mut rng);
        }
    }
    println!("Wrong calls done on damage: {done} of {}", 4 * 800 * 39);
    assert!(done > 5000, "{done}");
}

/// States of damage alone, on cards of any length.
#[test]
fn wrong_engines_refuse_or_bear_random_states() {
    let mut rng = Rng(78);
    for _ in 0..4000 {
        let fill = rng.pick(&[0, 1, 254, 255]);
        let mut probe = Probe {
            state: Default::default(),
            card: vec![fill; rng.pick(&[0, 1, 16_384, 20_480])],
            register: vec![fill; rng.pick(&[0, 65, 130])],
        };
        probe.state.lengths.card = rng.pick(&[0, 16_384, 20_480, 16_383]);
        probe.state.lengths.register = rng.pick(&[65, 130, 64, 0]);
        for _ in 0..rng.below(12) {
            damage(&mut probe, &mut rng);
        }
        bear(&probe, &mut rng);
    }
}

/// Any postings of three identifiers, with windows and counts up to their limits.
fn any_entries(rng: &mut Rng, windows: &[u32]) -> Vec<Entry> {
    let mut entries = Vec::new();
    for id in 0..3 {
        for &window in windows {
            if rng.one_in(3) {
                let count = match rng.below(20) {
                    0 => rng.pick(&[20_000, -20_000, 32_767, -32_767]),
                    _ => rng.pick(&[1, 1, 2, 3, -1, -2]),
                };
                entries.push((id, window, count));
            }
        }
    }
    entries
}

/// A foreign card with any number of partitions and a merge in progress or none.
fn any_foreign(rng: &mut Rng) -> Probe {
    let parts = (0..rng.pick(&[1, 2, 3, 8, 9, 12])).map(|_| {
        let mut entries = any_entries(rng, &[65_535, 2001, 2000, 1999, 40, 3, 2, 1]);
        if entries.is_empty() {
            entries.push((3, 1, 1));
        }
        part(0, entries)
    });
    let mut probe = card_of(parts.collect());
    probe.state.windows.live = rng.pick(&[0, 1, 2, 3, 5, 1500, 1999]);
    let buffer = any_entries(rng, &[1999, 40, 3, 1]);
    probe.state.buffer = Default::default();
    probe.state.buffer.used = buffer.len() as u16;
    for (place, entry) in probe.state.buffer.postings.iter_mut().zip(&buffer) {
        *place = Posting {
            id: entry.0 as u16,
            window: entry.1 as u16,
            count: entry.2 as i16,
        };
    }
    if probe.state.partitions.used >= 8 {
        probe.state.merge.steps = rng.pick(&[0, 1, 2, 1000, u32::MAX]);
    }
    probe
}

/// A step of a wrong engine is the right one's, unless it drops negative counts.
fn compare_steps(fault: Fault, probe: &Probe) {
    let (mut wrong, mut right) = (probe.clone(), probe.clone());
    let result = step(fault, &mut wrong);
    let expected = engine::step(&mut right.state, &mut right.card).map_err(Refusal::number);
    if fault != Fault::DroppedNegatives {
        assert_eq!(result, expected, "{fault:?}");
        assert!(wrong == right, "{fault:?}");
    }
}

/// On foreign cards, wrong engines refuse what the right one refuses.
#[test]
fn wrong_engines_refuse_no_more_than_the_right_one() {
    let mut rng = Rng(79);
    let (mut queries, mut different) = (0, [0; 13]);
    for _ in 0..6000 {
        let probe = any_foreign(&mut rng);
        let ids: [&[u8]; 5] = [b"A", b"B", b"C", b"D", b"X"];
        let ids = &ids[rng.below(4)..];
        let room = rng.pick(&[1, 2, 3, 8, 32]);
        let stretch = Stretch {
            first: rng.pick(&[0, 1, 1, 2, 4, 40, 2000, 65_535]),
            last: rng.pick(&[0, 1, 39, 40, 1999, 65_535, 65_535]),
        };
        let right = ask_in(None, &probe, ids, stretch, room);
        queries += usize::from(right.is_ok());
        for (fault, different) in Fault::ALL.into_iter().zip(&mut different) {
            let answer = ask_in(Some(fault), &probe, ids, stretch, room);
            assert_eq!(answer.as_ref().err(), right.as_ref().err(), "{fault:?}");
            *different += usize::from(answer != right);
            let (hits, _) = answer.unwrap_or_default();
            let order: Vec<(u32, u16)> = hits.iter().map(|hit| (hit.1, hit.0)).collect();
            assert!(order.is_sorted_by(|a, b| a > b), "{fault:?}");
            assert!(order.iter().all(|hit| hit.0 <= 306_000), "{fault:?}");
            compare_steps(fault, &probe);
        }
    }
    println!("Foreign cards: {queries} queries, different: {different:?}");
    assert!(queries > 1000, "{queries}");
    for (fault, times) in Fault::ALL.into_iter().zip(different) {
        let is_hidden = [Fault::CutIdentifiers, Fault::DroppedNegatives].contains(&fault);
        assert!(
            if is_hidden { times == 0 } else { times > 50 },
            "{fault:?}: {times}"
        );
    }
}

/// A place that takes back from a live window, as only a foreign card has it, is
/// none that F counts.
#[test]
fn frequencies_of_postings_below_0() {
    let both = [Fault::AddedFrequencies, Fault::MendedNeighbours].map(Some);
    // 1,499 other windows have B.
    let others = || part(0, (2..=1500).rev().map(|window| (1, window, 1)).collect());
    let card = |counts: &[i64]| {
        let parts = counts.iter().map(|&count| part(0, vec![(0, 1, count)]));
        card_of([others()].into_iter().chain(parts).collect())
    };
    // A count of 2 weighs 25, and one window of 1500 weighs 168. The open window has A, too.
    for fault in [None].into_iter().chain(both) {
        let answer = ask(fault, &card(&[3, -1]), &[b"A"], 2);
        assert_eq!(answer, Ok((vec![(1, 25 * 168)], 3)), "{fault:?}");
    }
    // A count of 3 weighs 32, and two windows weigh 168 - 16.
    let probe = card(&[3, -1, 1]);
    assert_eq!(ask(None, &probe, &[b"A"], 2), Ok((vec![(1, 32 * 168)], 4)));
    for fault in both {
        let answer = ask(fault, &probe, &[b"A"], 2);
        assert_eq!(answer, Ok((vec![(1, 32 * 152)], 4)), "{fault:?}");
    }
}

/// A frequency that is added up may be above all window numbers.
#[test]
fn added_frequencies_beyond_16_bits() {
    let mut ledger = Ledger::new(300, 5);
    ledger.known = vec![b"A".to_vec()];
    ledger.last = 65_535;
    let entries = || (1..=40_000).rev().map(|window| (0, window, 1)).collect();
    let others = (40_001..=65_535).rev().map(|window| (1, window, 1));
    ledger.account.parts = vec![
        part(0, entries()),
        part(0, entries()),
        part(0, others.collect()),
    ];
    let probe = build(&ledger);
    // A count of 2 weighs 25, and 40,000 windows of 65,535 weigh 255 - 244.
    let right = Ok((vec![(40_000, 275)], 80_000));
    assert_eq!(ask(None, &probe, &[b"A"], 1), right);
    assert_eq!(
        ask(Some(Fault::MendedNeighbours), &probe, &[b"A"], 1),
        right
    );
    let wrong = Ok((vec![(40_000, 0)], 80_000));
    assert_eq!(
        ask(Some(Fault::AddedFrequencies), &probe, &[b"A"], 1),
        wrong
    );
}

/// Counts that are taken twice, or without what takes them back, are cut to the largest one.
#[test]
fn wrong_counts_are_cut_to_the_largest() {
    let others = (2..=8).map(|window| part(0, vec![(1, window, 1)]));
    let first = part(0, vec![(0, 1, 32_767)]);
    let mut probe = card_of([first].into_iter().chain(others).collect());
    probe.state.merge.steps = 1;
    // A count of 32,767 weighs 240 and one window of 8 weighs 48. The open window has A, too.
    let hits = vec![(1, 240 * 48)];
    assert_eq!(ask(None, &probe, &[b"A"], 2), Ok((hits.clone(), 2)));
    let wrong = ask(Some(Fault::ReadOutput), &probe, &[b"A"], 2);
    assert_eq!(wrong, Ok((hits.clone(), 3)));
    let mut parts = [32_767, -32_767, 32_767]
        .map(|count| part(0, vec![(0, 1, count)]))
        .to_vec();
    parts.push(part(
        0,
        (2..=8).rev().map(|window| (1, window, 1)).collect(),
    ));
    let probe = card_of(parts);
    for fault in [None, Some(Fault::FilledFirst)] {
        assert_eq!(ask(fault, &probe, &[b"A"], 2), Ok((hits.clone(), 4)));
    }
}
