//! The ways in which queries of wrong engines go wrong, each in the place of one
//! step of the right query.

use super::query::{Reading, ranked, scores};
use crate::merge::{Merge, due_level};
use crate::partition::read_all;
use crate::postings::{Sums, add, cut_to_counts};
use crate::state::{Hit, Posting, State};
use crate::stretch::Stretch;
use crate::weights::sixteenths;
use std::cmp::Reverse;
use std::collections::{BTreeMap, BTreeSet};

/// What is read if these are the places. Their sums need be no counts, and are cut to them.
fn reading_of(numbers: BTreeSet<u16>, places: Vec<Vec<Posting>>) -> Reading {
    let mut sums = Sums::new();
    for place in &places {
        add(&mut sums, place);
    }
    cut_to_counts(&mut sums);
    Reading {
        numbers,
        places,
        sums,
    }
}

/// What is read if the output in progress is read beside its inputs.
pub fn with_output(state: &State, card: &[u8], mut reading: Reading) -> Reading {
    let output = output_so_far(state, card).unwrap_or_default();
    reading.places.push(output);
    reading_of(reading.numbers, reading.places)
}

/// The postings that the steps done must have written, or `None` if nothing is due
/// or the inputs are malformed where the query does not read them.
fn output_so_far(state: &State, card: &[u8]) -> Option<Vec<Posting>> {
    let partitions = state.partitions.to_list();
    let stored = read_all(&partitions, card)?;
    let merge = Merge::of_level(due_level(&partitions)?, &partitions, &stored)?;
    Some(merge.written_after(state.merge.steps).to_vec())
}

/// What is read if the buffer, the last of the places, is not.
pub fn without_buffer(mut reading: Reading) -> Reading {
    reading.places.pop();
    reading_of(reading.numbers, reading.places)
}

/// What is read if a partition is passed over wherever its lowest window is outside the stretch.
pub fn by_lowest_windows(stretch: Stretch, reading: Reading) -> Reading {
    let lowest = |postings: &[Posting]| postings.iter().map(|posting| posting.window).min();
    without_partitions(reading, |postings| {
        lowest(postings).is_some_and(|window| stretch.has(window))
    })
}

/// What is read if a partition's highest window is taken to be that of its last list.
pub fn by_last_lists(stretch: Stretch, reading: Reading) -> Reading {
    without_partitions(reading, |postings| {
        let last_list = postings.chunk_by(|one, next| one.id == next.id).last();
        last_list.is_some_and(|list| list[0].window >= stretch.first)
    })
}

/// What is read if only these partitions are; the buffer, the last of the places, always is.
fn without_partitions(mut reading: Reading, is_read: impl Fn(&[Posting]) -> bool) -> Reading {
    let buffer = reading.places.pop();
    reading.places.retain(|postings| is_read(postings));
    reading.places.extend(buffer);
    reading_of(reading.numbers, reading.places)
}

/// How many postings of the query's identifiers the partitions have that are passed over.
pub fn taken_outside(state: &State, card: &[u8], stretch: Stretch, reading: &Reading) -> u32 {
    let stored = read_all(&state.partitions.to_list(), card).unwrap_or_default();
    let outside = stored
        .iter()
        .filter(|partition| stretch.passes_over(&partition.record));
    let taken = outside.flat_map(|partition| {
        let numbers = reading.numbers.iter();
        numbers.map(|&id| partition.list_length(id))
    });
    taken.sum::<usize>() as u32
}

/// F added up over the places: a window counts in each that holds it.
pub fn added_frequency(places: &[Vec<Posting>], counts: &Sums, id: u16) -> u16 {
    let held = places.iter().map(|place| windows_in(place, counts, id));
    narrowed(held.map(|windows| windows.len()).sum())
}

/// The same, but a window does not count again if the place before holds it too.
pub fn mended_frequency(places: &[Vec<Posting>], counts: &Sums, id: u16) -> u16 {
    let mut total = 0;
    let mut before = BTreeSet::new();
    for place in places {
        let held = windows_in(place, counts, id);
        total += held.difference(&before).count();
        before = held;
    }
    narrowed(total)
}

/// The windows that a place holds with a posting above 0, of those with a count.
fn windows_in(place: &[Posting], counts: &Sums, id: u16) -> BTreeSet<u16> {
    let is_held = |posting: &&Posting| {
        posting.id == id && posting.count > 0 && counts.contains_key(&(id, Reverse(posting.window)))
    };
    let held = place.iter().filter(is_held);
    held.map(|posting| posting.window).collect()
}

/// A number of windows as far as 16 bits hold it. One beyond weighs nothing
/// either way: it is not below N.
fn narrowed(windows: usize) -> u16 {
    u16::try_from(windows).unwrap_or(u16::MAX)
}

/// The weight of N / F rounded down. The quotient is 0 where F is above N.
pub fn quotient_weight(live: u16, with: u16) -> u32 {
    match live.checked_div(with) {
        None | Some(0) => 0,
        Some(quotient) => sixteenths(quotient),
    }
}

/// The hits if the list is filled by what the postings above 0 alone say, and
/// windows without a score are taken out of it only then.
pub fn filled_first(
    state: &State,
    stretch: Stretch,
    reading: &Reading,
    rarities: &BTreeMap<u16, u32>,
    mut right: BTreeMap<u16, u32>,
    room: usize,
) -> Vec<Hit> {
    let above_0 = |place: &Vec<Posting>| place.iter().copied().filter(|p| p.count > 0).collect();
    let places = reading.places.iter().map(above_0).collect();
    let above_0 = reading_of(reading.numbers.clone(), places);
    let counts = above_0.counts(&state.windows, stretch);
    let mut filled = ranked(&scores(&counts, rarities));
    filled.truncate(room);
    right.retain(|&window, _| filled.iter().any(|hit| hit.window == window));
    ranked(&right)
}
