//! Rank the closed windows of a stretch for a few identifiers.
//!
//! A wrong engine goes another way at one step; `wrong_ways` has these.

use super::wrong_ways::{
    added_frequency, by_last_lists, by_lowest_windows, filled_first, mended_frequency,
    quotient_weight, taken_outside, with_output, without_buffer,
};
use crate::faults::Fault;
use crate::limits::{HITS, QUERY_IDENTIFIERS};
use crate::partition::{Stored, read_all};
use crate::postings::{Sums, add, is_count};
use crate::refusal::Refusal;
use crate::register::{all_differ, is_identifier, number_of, read};
use crate::rules::{check_card, check_register, check_state};
use crate::state::{Hit, Posting, State, Windows};
use crate::stretch::Stretch;
use crate::weights::{count_weight, rarity_weight};
use std::cmp::Reverse;
use std::collections::{BTreeMap, BTreeSet};

/// What a query answers beside its list of hits.
#[derive(Clone, Copy, PartialEq, Eq, Default, Debug)]
pub struct Found {
    /// How many places of the list are filled.
    pub hits: u16,
    /// How many stored postings were taken up.
    pub taken: u32,
}

/// Fills the list with the closed windows of the stretch that score highest on the
/// identifiers. Postings taken are all that are stored in the buffer and in the
/// partitions not passed over, the open window's too.
pub fn query(
    state: &State,
    card: &[u8],
    register: &[u8],
    ids: &[&[u8]],
    stretch: Stretch,
    hits: &mut [Hit],
) -> Result<Found, Refusal> {
    query_with(None, state, card, register, ids, stretch, hits)
}

/// The query of the right engine, or of the one with a fault.
pub(crate) fn query_with(
    fault: Option<Fault>,
    state: &State,
    card: &[u8],
    register: &[u8],
    ids: &[&[u8]],
    stretch: Stretch,
    hits: &mut [Hit],
) -> Result<Found, Refusal> {
    let reading = read_places(state, card, register, ids, stretch)?;
    if !is_query(ids, hits) {
        return Err(Refusal::BadQuery);
    }
    if stretch.first > stretch.last {
        return Err(Refusal::BadStretch);
    }
    let reading = match fault {
        Some(Fault::ReadOutput) => with_output(state, card, reading),
        Some(Fault::ForgottenBuffer) => without_buffer(reading),
        Some(Fault::LowestAlone) => by_lowest_windows(stretch, reading),
        Some(Fault::LastListHighest) => by_last_lists(stretch, reading),
        _ => reading,
    };
    let counts = reading.counts(&state.windows, stretch);
    let rarities = rarities(fault, state, stretch, &reading);
    let scores = scores(&counts, &rarities);
    let ranked = match fault {
        Some(Fault::FilledFirst) => {
            filled_first(state, stretch, &reading, &rarities, scores, hits.len())
        }
        _ => ranked(&scores),
    };
    let listed = ranked.len().min(hits.len());
    hits[..listed].copy_from_slice(&ranked[..listed]);
    let outside = match fault {
        Some(Fault::TakenOutside) => taken_outside(state, card, stretch, &reading),
        _ => 0,
    };
    Ok(Found {
        hits: listed as u16,
        taken: reading.taken() + outside,
    })
}

/// An identifier's number and a window.
type Pair = (u16, Reverse<u16>);

/// What a query reads.
pub(super) struct Reading {
    /// The numbers of its identifiers.
    pub numbers: BTreeSet<u16>,
    /// All postings by place, of every identifier: in the partitions that are not passed
    /// over, the oldest first, then in the buffer.
    pub places: Vec<Vec<Posting>>,
    /// The sum of each pair over the places.
    pub sums: Sums,
}

impl Reading {
    /// How many stored postings of the query's identifiers there are.
    fn taken(&self) -> u32 {
        let postings = self.places.iter().flatten();
        let taken = postings.filter(|posting| self.numbers.contains(&posting.id));
        taken.count() as u32
    }

    /// The sums above 0 in closed windows of the stretch, of every identifier. Every
    /// window but the open one is closed, even above the last number given.
    fn shown(&self, windows: &Windows, stretch: Stretch) -> impl Iterator<Item = (Pair, i32)> {
        let open = windows.open;
        let sums = self.sums.iter().map(|(&pair, &sum)| (pair, sum));
        sums.filter(move |&((_, Reverse(window)), sum)| {
            window != open && stretch.has(window) && sum > 0
        })
    }

    /// Of these, the counts of the query's identifiers.
    pub fn counts(&self, windows: &Windows, stretch: Stretch) -> Sums {
        let shown = self.shown(windows, stretch);
        shown
            .filter(|((id, _), _)| self.numbers.contains(id))
            .collect()
    }

    /// N: how many closed windows of the stretch have a count of any identifier.
    fn live(&self, windows: &Windows, stretch: Stretch) -> u16 {
        let shown = self.shown(windows, stretch);
        let different: BTreeSet<u16> = shown.map(|((_, window), _)| window.0).collect();
        different.len() as u16
    }
}

/// Reads and judges what card, register and buffer hold for a query over a stretch, and
/// then judges its identifiers: refusals 1 to 4 of every call that reads counts by
/// identifier.
pub(super) fn read_places(
    state: &State,
    card: &[u8],
    register: &[u8],
    ids: &[&[u8]],
    stretch: Stretch,
) -> Result<Reading, Refusal> {
    check_state(state)?;
    check_card(state, card)?;
    check_register(state, register)?;
    let names = read(register).ok_or(Refusal::Malformed)?;
    let stored = read_all(&state.partitions.to_list(), card).ok_or(Refusal::Malformed)?;
    let numbers: BTreeSet<u16> = ids.iter().filter_map(|id| number_of(&names, id)).collect();
    let mut places = lists_of(&stored, stretch).ok_or(Refusal::Malformed)?;
    let buffered = state.buffer.to_list();
    let sums = sums_of(&places, &buffered, &numbers).ok_or(Refusal::Malformed)?;
    if !ids.iter().all(|id| is_identifier(id)) {
        return Err(Refusal::BadIdentifier);
    }
    places.push(buffered);
    Ok(Reading {
        numbers,
        places,
        sums,
    })
}

fn is_query(ids: &[&[u8]], hits: &[Hit]) -> bool {
    (1..=QUERY_IDENTIFIERS).contains(&ids.len())
        && (1..=HITS).contains(&hits.len())
        && all_differ(ids)
}

/// All postings of each partition that is not passed over, or `None` if a list is
/// malformed.
fn lists_of(stored: &[Stored], stretch: Stretch) -> Option<Vec<Vec<Posting>>> {
    let is_read = |partition: &&Stored| !stretch.passes_over(&partition.record);
    stored
        .iter()
        .filter(is_read)
        .map(Stored::all_lists)
        .collect()
}

/// The sum of each pair, or `None` if one of these identifiers has a sum that is no
/// count, with or without the buffer. Of the others only the sign matters.
fn sums_of(
    on_card: &[Vec<Posting>],
    buffered: &[Posting],
    numbers: &BTreeSet<u16>,
) -> Option<Sums> {
    let fits = |sums: &Sums| {
        let mut sums = sums.iter();
        sums.all(|((id, _), &sum)| !numbers.contains(id) || is_count(sum))
    };
    let mut sums = Sums::new();
    for partition in on_card {
        add(&mut sums, partition);
    }
    if !fits(&sums) {
        return None;
    }
    add(&mut sums, buffered);
    fits(&sums).then_some(sums)
}

/// The weight of each identifier.
fn rarities(
    fault: Option<Fault>,
    state: &State,
    stretch: Stretch,
    reading: &Reading,
) -> BTreeMap<u16, u32> {
    let live = match fault {
        Some(Fault::LiveOutside) => state.windows.live,
        _ => reading.live(&state.windows, stretch),
    };
    let counts = match fault {
        Some(Fault::FrequencyOutside) => reading.counts(&state.windows, Stretch::ALL),
        _ => reading.counts(&state.windows, stretch),
    };
    let rarity = |&id: &u16| {
        let with = match fault {
            Some(Fault::AddedFrequencies) => added_frequency(&reading.places, &counts, id),
            Some(Fault::MendedNeighbours) => mended_frequency(&reading.places, &counts, id),
            _ => frequency(&counts, id),
        };
        let weight = match fault {
            Some(Fault::RoundedQuotient) => quotient_weight(live, with),
            _ => rarity_weight(live, with),
        };
        (id, weight)
    };
    reading.numbers.iter().map(rarity).collect()
}

/// F: how many windows have a count of the identifier. A window counts one time,
/// however many partitions hold it.
fn frequency(counts: &Sums, id: u16) -> u16 {
    counts.keys().filter(|pair| pair.0 == id).count() as u16
}

/// The score of each window with a count above 0.
pub(super) fn scores(counts: &Sums, rarities: &BTreeMap<u16, u32>) -> BTreeMap<u16, u32> {
    let mut scores = BTreeMap::new();
    for (&(id, Reverse(window)), &count) in counts {
        let weight = count_weight(count as u16) * rarities[&id];
        *scores.entry(window).or_insert(0) += weight;
    }
    scores
}

/// The windows by falling score, then falling number.
pub(super) fn ranked(scores: &BTreeMap<u16, u32>) -> Vec<Hit> {
    let mut hits: Vec<Hit> = scores
        .iter()
        .map(|(&window, &score)| Hit { window, score })
        .collect();
    hits.sort_by_key(|hit| Reverse((hit.score, hit.window)));
    hits
}
