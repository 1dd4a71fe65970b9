//! Wrong engines on random histories, held against what the ledger's account of
//! the card says of their faults.

use crate::damage::PLAN;
use crate::history::{act, any_stretch, name};
use crate::image::{decode, encode_unfinished, walk};
use crate::rng::Rng;
use crate::twin::{Twin, check_byte_rule};
use crate::wrong::{Answer, ask, ask_in, count, step};
use second::commands::Probe;
use second::engine;
use second::faults::Fault;
use second::ledger::account::{Due, Entry, Part};
use second::ledger::{Ledger, count_weight, rarity_weight, sixteenths};
use second::refusal::Refusal;
use second::state::MergeJob;
use second::stretch::Stretch;
use std::cmp::Reverse;
use std::collections::{BTreeMap, BTreeSet};

/// Counts by identifier and window.
type Counts = BTreeMap<(usize, u32), i64>;

/// Whether the wrong engine reads a partition for a query over a stretch.
fn is_read(fault: Fault, part: &Part, stretch: Stretch) -> bool {
    let [first, last] = [stretch.first, stretch.last].map(u32::from);
    let windows: BTreeSet<u32> = part.entries.iter().map(|entry| entry.1).collect();
    let (lowest, mut highest) = (*windows.first().unwrap(), *windows.last().unwrap());
    if fault == Fault::LastListHighest {
        let last_id = part.entries[part.entries.len() - 1].0;
        let mut list = part.entries.iter().filter(|entry| entry.0 == last_id);
        highest = list.next().unwrap().1;
    }
    match fault {
        Fault::LowestAlone => (first..=last).contains(&lowest),
        _ => highest >= first && lowest <= last,
    }
}

/// What the places hold, as the wrong engine reads them: the partitions that it does not
/// pass over, the oldest first, the buffer, and the output in progress.
fn places_of(fault: Fault, ledger: &Ledger, stretch: Stretch) -> Vec<Vec<Entry>> {
    let account = &ledger.account;
    let parts = account.parts.iter();
    let read = parts.filter(|part| is_read(fault, part, stretch));
    let mut places: Vec<Vec<Entry>> = read.map(|part| part.entries.clone()).collect();
    if fault != Fault::ForgottenBuffer {
        let buffer = account.buffer.iter();
        places.push(buffer.map(|(pair, &sum)| (pair.0, pair.1.0, sum)).collect());
    }
    if fault == Fault::ReadOutput && account.steps > 0 {
        let mut output = account.due().expect("a merge in progress").pairs;
        output.truncate(16 * account.steps);
        output.retain(|entry| entry.2 != 0);
        places.push(output);
    }
    places
}

/// The sums above 0 of closed windows of a stretch.
fn counts_of(ledger: &Ledger, entries: impl Iterator<Item = Entry>, stretch: Stretch) -> Counts {
    let mut counts = Counts::new();
    for (id, window, count) in entries {
        *counts.entry((id, window)).or_insert(0) += count;
    }
    let inside = u32::from(stretch.first)..=u32::from(stretch.last);
    counts.retain(|pair, sum| ledger.open != Some(pair.1) && inside.contains(&pair.1) && *sum > 0);
    counts
}

/// F as the wrong engine counts it.
fn plain_frequency(fault: Fault, places: &[Vec<Entry>], counts: &Counts, id: usize) -> u32 {
    let holds = |place: usize, window: u32| {
        let mut entries = places[place].iter();
        entries.any(|entry| (entry.0, entry.1) == (id, window) && entry.2 > 0)
    };
    let mut total = 0;
    for &(_, window) in counts.keys().filter(|pair| pair.0 == id) {
        let held: Vec<usize> = (0..places.len()).filter(|&p| holds(p, window)).collect();
        total += match fault {
            Fault::AddedFrequencies => held.len(),
            Fault::MendedNeighbours => {
                let neighbours = held.windows(2).filter(|pair| pair[1] == pair[0] + 1);
                held.len() - neighbours.count()
            }
            _ => 1,
        };
    }
    total as u32
}

fn plain_scores(counts: &Counts, weights: &BTreeMap<usize, u32>) -> Vec<(u16, u32)> {
    let mut scores: BTreeMap<u16, u32> = BTreeMap::new();
    for (&(id, window), &count) in counts {
        *scores.entry(window as u16).or_insert(0) += count_weight(count as u32) * weights[&id];
    }
    let mut ranked: Vec<(u16, u32)> = scores.into_iter().collect();
    ranked.sort_by_key(|&(window, score)| Reverse((score, window)));
    ranked
}

/// N as the wrong engine counts it.
fn plain_live(fault: Fault, ledger: &Ledger, shown: &Counts) -> u32 {
    let windows: BTreeSet<u32> = shown.keys().map(|pair| pair.1).collect();
    match fault {
        Fault::LiveOutside => ledger.closed().count() as u32,
        _ => windows.len() as u32,
    }
}

/// What a wrong engine must answer to a query, by the ledger's account of the card.
fn plain_query(
    fault: Fault,
    ledger: &Ledger,
    ids: &[&[u8]],
    stretch: Stretch,
    room: usize,
) -> Answer {
    let numbers: Vec<usize> = ids.iter().filter_map(|id| ledger.number(id)).collect();
    let places = places_of(fault, ledger, stretch);
    let entries = || places.iter().flatten().copied();
    let shown = counts_of(ledger, entries(), stretch);
    let live = plain_live(fault, ledger, &shown);
    let of_query = |mut counts: Counts| {
        counts.retain(|pair, _| numbers.contains(&pair.0));
        counts
    };
    let counts = of_query(shown);
    let weighed = match fault {
        Fault::FrequencyOutside => of_query(counts_of(ledger, entries(), Stretch::ALL)),
        _ => counts.clone(),
    };
    let weight = |&id: &usize| {
        let with = plain_frequency(fault, &places, &weighed, id);
        let weight = match fault {
            Fault::RoundedQuotient if (1..=live).contains(&with) => sixteenths(live / with),
            _ => rarity_weight(live, with),
        };
        (id, weight)
    };
    let weights: BTreeMap<usize, u32> = numbers.iter().map(weight).collect();
    let mut ranked = plain_scores(&counts, &weights);
    if fault == Fault::FilledFirst {
        let above_0 = entries().filter(|entry| entry.2 > 0);
        let above_0 = of_query(counts_of(ledger, above_0, stretch));
        let mut filled = plain_scores(&above_0, &weights);
        filled.truncate(room);
        ranked.retain(|hit| filled.iter().any(|place| place.0 == hit.0));
    }
    ranked.truncate(room);
    let taken_from = match fault {
        Fault::TakenOutside => places_of(fault, ledger, Stretch::ALL),
        _ => places.clone(),
    };
    let taken = taken_from.iter().flatten();
    let taken = taken.filter(|entry| numbers.contains(&entry.0)).count();
    Ok((ranked, taken as u32))
}

/// One to three different identifiers of a history.
fn some_names(rng: &mut Rng) -> BTreeSet<Vec<u8>> {
    let numbers = (0..1 + rng.below(3)).map(|_| rng.below(PLAN.names));
    numbers.map(name).collect()
}

#[test]
fn wrong_queries_are_as_the_account_says() {
    const QUERY_FAULTS: [Fault; 11] = [
        Fault::AddedFrequencies,
        Fault::MendedNeighbours,
        Fault::FilledFirst,
        Fault::RoundedQuotient,
        Fault::ReadOutput,
        Fault::ForgottenBuffer,
        Fault::LowestAlone,
        Fault::LastListHighest,
        Fault::TakenOutside,
        Fault::LiveOutside,
        Fault::FrequencyOutside,
    ];
    let mut rng = Rng(74);
    let mut different = [0; 11];
    for _ in 0..6 {
        let mut twin = Twin::new(PLAN.blocks, PLAN.entries);
        for _ in 0..800 {
            act(&mut twin, &mut rng, &PLAN);
            let probe = twin.probe();
            let names = some_names(&mut rng);
            let ids: Vec<&[u8]> = names.iter().map(|name| &name[..]).collect();
            let room = rng.pick(&[1, 2, 3, 5, 32]);
            let mut stretch = any_stretch(&mut rng, probe.state.windows.last);
            if stretch.first > stretch.last {
                stretch = Stretch::ALL;
            }
            let right = ask_in(None, &probe, &ids, stretch, room);
            for (fault, different) in QUERY_FAULTS.into_iter().zip(&mut different) {
                let answer = ask_in(Some(fault), &probe, &ids, stretch, room);
                let expected = plain_query(fault, &twin.ledger, &ids, stretch, room);
                assert_eq!(answer, expected, "{fault:?}, {stretch:?}");
                *different += usize::from(answer != right);
            }
            // A merge that drops negative counts has no part in a query.
            let dropped = ask_in(Some(Fault::DroppedNegatives), &probe, &ids, stretch, room);
            assert_eq!(dropped, right);
        }
    }
    println!("Queries that differ: {different:?} of {}", 6 * 800);
    assert!(different.iter().all(|&times| times > 50), "{different:?}");
}

/// What the merge that is due gives without negative counts.
fn due_above_0(ledger: &Ledger) -> Option<Due> {
    let mut due = ledger.account.due()?;
    due.result.entries.retain(|entry| entry.2 > 0);
    for entry in &mut due.pairs {
        entry.2 = entry.2.max(0);
    }
    Some(due)
}

/// Merges to the end, and compares the output after each step.
fn merge_above_0(probe: &Probe, due: &Due) {
    let mut after = probe.clone();
    let steps = due.pairs.len().div_ceil(16);
    for done in 1..=steps {
        let before = after.clone();
        assert_eq!(step(Fault::DroppedNegatives, &mut after), Ok(()));
        check_byte_rule(&before.card, &after.card);
        if done < steps {
            let job = after.state.merge;
            assert_eq!(
                (job.steps as usize, job.length as usize),
                (done, due.result.length())
            );
            let expected = encode_unfinished(due, done);
            let blocks = match due.result.blocks() {
                0 => vec![],
                count => walk(&after.card, job.first.into(), count),
            };
            let found = blocks
                .iter()
                .flat_map(|block| &after.card[block * 4096..][..4092]);
            assert!(found.copied().take(expected.len()).eq(expected));
        }
    }
    assert_eq!(after.state.merge, MergeJob::default());
    let mut records = after.state.partitions.to_list();
    if !due.result.entries.is_empty() {
        let record = records.remove(due.inputs.start);
        assert_eq!(usize::from(record.level), due.result.level);
        let blocks = walk(&after.card, record.first.into(), due.result.blocks());
        assert_eq!(decode(&after.card, &blocks), due.result.entries);
    }
    let mut others = probe.state.partitions.to_list();
    others.drain(due.inputs.clone());
    assert_eq!(records, others);
}

#[test]
fn merges_without_negatives_are_as_the_account_says() {
    let mut rng = Rng(75);
    let (mut merges, mut dropping) = (0, 0);
    for _ in 0..6 {
        let mut twin = Twin::new(PLAN.blocks, PLAN.entries);
        for _ in 0..800 {
            act(&mut twin, &mut rng, &PLAN);
            let due = due_above_0(&twin.ledger).filter(|_| twin.ledger.account.steps == 0);
            if let Some(due) = due {
                merge_above_0(&twin.probe(), &due);
                let right = twin.ledger.account.due().expect("it is due");
                merges += 1;
                dropping += usize::from(right.result != due.result);
            }
        }
    }
    println!("Merges: {merges}, {dropping} that drop a negative count");
    assert!(merges > 100 && dropping > 30, "{merges}, {dropping}");
}

/// An identifier that is cut is the one that is left of it.
#[test]
fn cut_identifiers_are_those_left_of_them() {
    let mut rng = Rng(76);
    let mut twin = Twin::new(PLAN.blocks, PLAN.entries);
    for _ in 0..800 {
        act(&mut twin, &mut rng, &PLAN);
        let mut right = twin.probe();
        let mut wrong = right.clone();
        let names = some_names(&mut rng);
        let ids: Vec<&[u8]> = names.iter().map(|name| &name[..]).collect();
        let cut: Vec<&[u8]> = ids.iter().map(|id| &id[..id.len().min(16)]).collect();
        let answer = ask(Some(Fault::CutIdentifiers), &wrong, &ids, 4);
        assert_eq!(answer, ask(None, &right, &cut, 4));
        let expected = engine::event(
            &mut right.state,
            &mut right.card,
            &mut right.register,
            cut[0],
        );
        let result = count(Fault::CutIdentifiers, &mut wrong, ids[0]);
        assert_eq!(result, expected.map_err(Refusal::number));
        assert!(right == wrong);
    }
}
