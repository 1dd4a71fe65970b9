//! Remove a closed window.

use super::flush::write_buffer;
use crate::limits::{BUFFER, WINDOW_IDENTIFIERS};
use crate::partition::{Stored, read_all};
use crate::postings::{Sums, add, are_counts, nonzero};
use crate::refusal::Refusal;
use crate::rules::{check_card, check_state};
use crate::state::{Buffer, Posting, State};

/// Takes out a closed window: each of its counts is buffered negated.
pub fn remove(state: &mut State, card: &mut [u8], window: u32) -> Result<(), Refusal> {
    let on_card = all_postings(state, card)?;
    let counts = counts_of(state, &on_card, window).ok_or(Refusal::Malformed)?;
    if state.windows.open != 0 && window == u32::from(state.windows.open) {
        return Err(Refusal::WrongWindow);
    }
    let is_live = counts.iter().any(|posting| posting.count > 0);
    if !is_live || window > u32::from(state.windows.last) || state.windows.live == 0 {
        return Err(Refusal::NotLive);
    }
    if usize::from(state.buffer.used) + counts.len() > BUFFER {
        write_buffer(state, card)?;
    }
    take_back(state, &counts);
    state.windows.live -= 1;
    Ok(())
}

/// Judges state and card as far as no window is named, refusals 1 to 3, and gives
/// all postings of the finished partitions.
pub(super) fn all_postings(state: &State, card: &[u8]) -> Result<Vec<Posting>, Refusal> {
    check_state(state)?;
    check_card(state, card)?;
    let stored = read_all(&state.partitions.to_list(), card).ok_or(Refusal::Malformed)?;
    let lists: Option<Vec<Vec<Posting>>> = stored.iter().map(Stored::all_lists).collect();
    Ok(lists.ok_or(Refusal::Malformed)?.concat())
}

/// The window's counts over card and buffer, or `None` if a sum is no count or
/// there are too many.
pub(super) fn counts_of(state: &State, on_card: &[Posting], window: u32) -> Option<Vec<Posting>> {
    let of_window = |postings: &[Posting]| -> Vec<Posting> {
        postings
            .iter()
            .filter(|posting| u32::from(posting.window) == window)
            .copied()
            .collect()
    };
    let mut sums = Sums::new();
    add(&mut sums, &of_window(on_card));
    let fits_on_card = are_counts(&sums);
    add(&mut sums, &of_window(&state.buffer.to_list()));
    if !fits_on_card || !are_counts(&sums) {
        return None;
    }
    let counts = nonzero(&sums);
    (counts.len() <= WINDOW_IDENTIFIERS).then_some(counts)
}

/// Buffers the counts negated. What remains of a pair in the buffer is its sum
/// on the card negated, so it is a count or 0.
fn take_back(state: &mut State, counts: &[Posting]) {
    let negated: Vec<Posting> = counts
        .iter()
        .map(|posting| Posting {
            count: -posting.count,
            ..*posting
        })
        .collect();
    let mut sums = Sums::new();
    add(&mut sums, &state.buffer.to_list());
    add(&mut sums, &negated);
    state.buffer = Buffer::from_list(&nonzero(&sums));
}
