//! Queries, means and removals, of one window and of several together, on damaged
//! cards that are still well-formed, held against a plain reading of the bytes.

use crate::calls::mean_of;
use crate::damage::{PLAN, any_name, damage};
use crate::history::{act, any_list, any_stretch};
use crate::image::{decode, walk};
use crate::rng::Rng;
use crate::together;
use crate::twin::Twin;
use second::commands::Probe;
use second::engine;
use second::ledger::account::Entry;
use second::ledger::{count_weight, rarity_weight};
use second::refusal::Refusal;
use second::state::{Hit, State};
use second::stretch::Stretch;
use std::cmp::Reverse;
use std::collections::{BTreeMap, BTreeSet};

/// Sums by identifier ascending, then window descending.
type Sums = BTreeMap<(usize, Reverse<u32>), i64>;

fn buffered(state: &State) -> Vec<Entry> {
    let list = state.buffer.to_list().into_iter();
    list.map(|p| (p.id.into(), p.window.into(), p.count.into()))
        .collect()
}

/// All postings of a well-formed card.
fn on_card(probe: &Probe) -> Vec<Entry> {
    read_on_card(probe, Stretch::ALL)
}

/// The postings of the partitions that a query over a stretch reads.
fn read_on_card(probe: &Probe, stretch: Stretch) -> Vec<Entry> {
    let mut entries = Vec::new();
    for record in probe.state.partitions.to_list() {
        if stretch.first > record.highest || stretch.last < record.lowest {
            continue;
        }
        let count = record.length.div_ceil(4092) as usize;
        let blocks = walk(&probe.card, record.first.into(), count);
        entries.extend(decode(&probe.card, &blocks));
    }
    entries
}

/// All postings of a well-formed card and the buffer.
fn all_entries(probe: &Probe) -> Vec<Entry> {
    read_entries(probe, Stretch::ALL)
}

/// The postings that a query over a stretch reads.
fn read_entries(probe: &Probe, stretch: Stretch) -> Vec<Entry> {
    [buffered(&probe.state), read_on_card(probe, stretch)].concat()
}

fn sums(entries: &[Entry]) -> Sums {
    let mut sums = Sums::new();
    for &(id, window, count) in entries {
        *sums.entry((id, Reverse(window))).or_insert(0) += count;
    }
    sums.retain(|_, sum| *sum != 0);
    sums
}

fn number(register: &[u8], id: &[u8]) -> Option<usize> {
    let mut entries = register.chunks_exact(65);
    entries.position(|entry| usize::from(entry[0]) == id.len() && entry[1..].starts_with(id))
}

/// The numbers of the identifiers that the register has.
fn numbers(probe: &Probe, ids: &BTreeSet<Vec<u8>>) -> Vec<usize> {
    let known = ids.iter().map(|id| number(&probe.register, id));
    known.flatten().collect()
}

/// Whether partitions hold postings of the open window under the identifiers.
fn open_on_card(probe: &Probe, ids: &BTreeSet<Vec<u8>>) -> bool {
    let numbers = numbers(probe, ids);
    let of_open = |entry: &Entry| entry.1 == u32::from(probe.state.windows.open);
    let mut entries = on_card(probe).into_iter();
    entries.any(|entry| of_open(&entry) && numbers.contains(&entry.0))
}

/// The sums above 0 of closed windows of a stretch.
fn shown_sums(probe: &Probe, entries: &[Entry], stretch: Stretch) -> Sums {
    let open = u32::from(probe.state.windows.open);
    let inside = u32::from(stretch.first)..=u32::from(stretch.last);
    let mut sums = sums(entries);
    sums.retain(|pair, sum| pair.1.0 != open && inside.contains(&pair.1.0) && *sum > 0);
    sums
}

/// The sum of an identifier's counts above 0 in closed windows, and how many these are.
fn plain_mean(probe: &Probe, id: &[u8]) -> (i64, usize) {
    let numbers = numbers(probe, &BTreeSet::from([id.to_vec()]));
    let mut sums = shown_sums(probe, &all_entries(probe), Stretch::ALL);
    sums.retain(|pair, _| numbers.contains(&pair.0));
    (sums.values().sum(), sums.len())
}

/// The ranked closed windows of a stretch and the postings taken up.
fn plain_query(
    probe: &Probe,
    ids: &BTreeSet<Vec<u8>>,
    stretch: Stretch,
) -> (Vec<(u32, u32)>, usize) {
    let numbers = numbers(probe, ids);
    let entries = read_entries(probe, stretch);
    let sums = shown_sums(probe, &entries, stretch);
    let live: BTreeSet<u32> = sums.keys().map(|pair| pair.1.0).collect();
    let mut scores: BTreeMap<u32, u32> = BTreeMap::new();
    for (&(id, Reverse(window)), &count) in &sums {
        if numbers.contains(&id) {
            let with = sums.keys().filter(|pair| pair.0 == id).count();
            let rarity = rarity_weight(live.len() as u32, with as u32);
            *scores.entry(window).or_insert(0) += count_weight(count as u32) * rarity;
        }
    }
    let mut ranked: Vec<(u32, u32)> = scores.into_iter().collect();
    ranked.sort_by_key(|&(window, score)| Reverse((score, window)));
    let taken = entries.iter().filter(|entry| numbers.contains(&entry.0));
    (ranked, taken.count())
}

/// The buffer after windows are taken out in their order, and how many
/// partitions that writes.
fn plain_removals(probe: &Probe, windows: &[u32]) -> (Vec<Entry>, usize) {
    let mut on_card = on_card(probe);
    let mut buffer = buffered(&probe.state);
    let mut flushes = 0;
    for &window in windows {
        let counts = sums(&[&buffer[..], &on_card].concat());
        let counts = counts.iter().filter(|(pair, _)| pair.1.0 == window);
        let negated: Vec<Entry> = counts.map(|(pair, sum)| (pair.0, window, -sum)).collect();
        if buffer.len() + negated.len() > 128 {
            on_card.append(&mut buffer);
            flushes += 1;
        }
        buffer.extend(negated);
        let after = sums(&buffer);
        let list = after.iter().map(|(pair, &sum)| (pair.0, pair.1.0, sum));
        buffer = list.collect();
    }
    (buffer, flushes)
}

/// How many calls were done.
#[derive(Default)]
struct Done {
    queries: usize,
    /// Queries that passed a partition over.
    passing: usize,
    /// Queries while partitions held postings of the open window.
    of_open: usize,
    means: usize,
    /// Means that were refused because no closed window has the identifier.
    uncounted: usize,
    removals: usize,
}

fn compare_mean(probe: &Probe, id: &[u8], done: &mut Done) {
    match mean_of(probe, id) {
        Ok(mean) => {
            let windows = i64::from(mean.windows);
            let sum = i64::from(mean.quotient) * windows + i64::from(mean.remainder);
            assert_eq!((sum, windows as usize), plain_mean(probe, id));
            done.means += 1;
        }
        Err(Refusal::Uncounted) => {
            assert_eq!(plain_mean(probe, id).1, 0);
            done.uncounted += 1;
        }
        Err(_) => {}
    }
}

/// Makes the calls and counts those that were done.
fn compare(probe: &Probe, rng: &mut Rng, done: &mut Done) {
    let names: BTreeSet<Vec<u8>> = (0..1 + rng.below(4)).map(|_| any_name(rng)).collect();
    let ids: Vec<&[u8]> = names.iter().map(|name| &name[..]).collect();
    let mut hits = vec![Hit::default(); 1 + rng.below(32)];
    let (card, register) = (&probe.card, &probe.register);
    let stretch = any_stretch(rng, probe.state.windows.last);
    let found = engine::query(&probe.state, card, register, &ids, stretch, &mut hits);
    if let Ok(found) = found {
        let (ranked, taken) = plain_query(probe, &names, stretch);
        let listed = ranked.len().min(hits.len());
        assert_eq!((found.hits as usize, found.taken as usize), (listed, taken));
        let list = hits.iter().map(|hit| (hit.window.into(), hit.score));
        assert!(list.take(listed).eq(ranked.into_iter().take(listed)));
        done.queries += 1;
        let records = probe.state.partitions.to_list();
        let is_passing = records.iter().any(|record| stretch.passes_over(record));
        done.passing += usize::from(is_passing);
        done.of_open += usize::from(open_on_card(probe, &names));
    }
    for id in ids {
        compare_mean(probe, id, done);
    }
    let mut after = probe.clone();
    let window = rng.below(usize::from(probe.state.windows.last) + 1) as u32;
    let removed = engine::remove(&mut after.state, &mut after.card, window);
    if removed.is_ok() {
        let (buffer, _) = plain_removals(probe, &[window]);
        assert_eq!(buffered(&after.state), buffer);
        assert_eq!(after.state.windows.live + 1, probe.state.windows.live);
        done.removals += 1;
    }
}

#[test]
fn well_formed_damage_is_read_as_it_stands() {
    let mut rng = Rng(31);
    let mut done = Done::default();
    for _ in 0..8 {
        let mut twin = Twin::new(PLAN.blocks, PLAN.entries);
        for _ in 0..1000 {
            act(&mut twin, &mut rng, &PLAN);
            let mut probe = twin.probe();
            for _ in 0..1 + rng.below(3) {
                damage(&mut probe, &mut rng);
            }
            compare(&probe, &mut rng, &mut done);
        }
    }
    let Done {
        queries,
        passing,
        of_open,
        means,
        uncounted,
        removals,
    } = done;
    println!(
        "Well-formed damage: {queries} queries, {passing} past a partition, {of_open} of an open window on the card, {means} means, {uncounted} of none, {removals} removals"
    );
    assert!(queries > 1000 && passing > 300 && of_open > 200 && removals > 200);
    assert!(means > 1000 && uncounted > 200);
}

/// How many lists of windows were done.
#[derive(Default)]
struct Lists {
    of_several: usize,
    /// Lists that wrote a partition on their way.
    flushing: usize,
}

/// Removes windows together and holds what is left against plain removals.
fn compare_list(probe: &Probe, windows: &[u32], done: &mut Lists) {
    let mut after = probe.clone();
    if engine::remove_all(&mut after.state, &mut after.card, windows).is_err() {
        return;
    }
    let (buffer, flushes) = plain_removals(probe, windows);
    assert_eq!(buffered(&after.state), buffer);
    let (new, old) = (&after.state, &probe.state);
    let written = new.partitions.used - old.partitions.used;
    assert_eq!(usize::from(written), flushes);
    let removed = old.windows.live - new.windows.live;
    assert_eq!(usize::from(removed), windows.len());
    // What a removed window had is taken back, and no other count has moved.
    let mut left = sums(&all_entries(probe));
    left.retain(|pair, _| !windows.contains(&pair.1.0));
    assert_eq!(sums(&all_entries(&after)), left);
    done.of_several += usize::from(windows.len() > 1);
    done.flushing += usize::from(flushes > 0);
}

#[test]
fn lists_on_well_formed_damage_are_taken_as_it_stands() {
    let mut rng = Rng(33);
    let mut done = Lists::default();
    for _ in 0..4 {
        let mut twin = Twin::new(together::PLAN.blocks, together::PLAN.entries);
        for _ in 0..together::PLAN.calls {
            act(&mut twin, &mut rng, &together::PLAN);
            let mut probe = twin.probe();
            damage(&mut probe, &mut rng);
            compare_list(&probe, &any_list(&mut rng, &twin.ledger), &mut done);
        }
    }
    let Lists {
        of_several,
        flushing,
    } = done;
    println!("Well-formed damage: {of_several} lists of several windows, {flushing} that flush");
    assert!(of_several > 200 && flushing > 50);
}
