//! The rules of the state and of the lent buffers' lengths: refusals 1 and 2.

use crate::limits::{
    BLOCK, CONTENT, COUNT, LAST_LEVEL, LAST_NUMBER, is_card_length, is_register_length,
    most_of_level,
};
use crate::merge::due_level;
use crate::refusal::Refusal;
use crate::state::{Buffer, Listed, MergeJob, Partition, Partitions, Posting, State, Windows};
use std::collections::BTreeSet;

/// Refuses a state that breaks a rule.
pub fn check_state(state: &State) -> Result<(), Refusal> {
    let holds = lengths_are_within_limits(state)
        && arrays_have_their_one_form(state)
        && windows_agree(&state.windows)
        && identifiers_differ(&state.windows, &state.listed.to_list())
        && buffer_is_in_order(&state.buffer.to_list())
        && buffer_agrees(&state.windows, &state.buffer.to_list())
        && partitions_fit(state.lengths.card as usize, &state.partitions.to_list())
        && spans_are_windows(&state.partitions.to_list())
        && levels_never_rise(&state.partitions.to_list())
        && levels_are_not_overfull(&state.partitions.to_list())
        && usize::from(state.taken) < state.lengths.card as usize / BLOCK
        && merge_has_work(&state.merge, &state.partitions.to_list());
    if holds {
        Ok(())
    } else {
        Err(Refusal::BrokenState)
    }
}

/// Refuses a card of another length than the start's.
pub fn check_card(state: &State, card: &[u8]) -> Result<(), Refusal> {
    check_length(state.lengths.card, card)
}

/// Refuses a register of another length than the start's.
pub fn check_register(state: &State, register: &[u8]) -> Result<(), Refusal> {
    check_length(state.lengths.register, register)
}

fn check_length(given: u32, lent: &[u8]) -> Result<(), Refusal> {
    if lent.len() == given as usize {
        Ok(())
    } else {
        Err(Refusal::WrongLength)
    }
}

fn lengths_are_within_limits(state: &State) -> bool {
    is_card_length(state.lengths.card as usize)
        && is_register_length(state.lengths.register as usize)
}

/// One content has one form: zeros past the used places, and no more used
/// places than there are.
fn arrays_have_their_one_form(state: &State) -> bool {
    state.listed == Listed::from_list(&state.listed.to_list())
        && state.buffer == Buffer::from_list(&state.buffer.to_list())
        && state.partitions == Partitions::from_list(&state.partitions.to_list())
}

/// The open window has the last number. N counts closed windows alone, so that
/// the open one's number is above it.
fn windows_agree(windows: &Windows) -> bool {
    let open_agrees = if windows.open == 0 {
        windows.events == 0
    } else {
        windows.open == windows.last && windows.live < windows.open && windows.events <= COUNT
    };
    open_agrees && windows.live <= windows.last
}

fn identifiers_differ(windows: &Windows, listed: &[u16]) -> bool {
    let different: BTreeSet<&u16> = listed.iter().collect();
    different.len() == listed.len()
        && listed.iter().all(|&id| id <= LAST_NUMBER)
        && (windows.open != 0 || listed.is_empty())
}

fn buffer_is_in_order(buffer: &[Posting]) -> bool {
    let in_order = |pair: &[Posting]| {
        pair[0].id < pair[1].id || (pair[0].id == pair[1].id && pair[0].window > pair[1].window)
    };
    buffer.windows(2).all(in_order)
}

fn buffer_agrees(windows: &Windows, buffer: &[Posting]) -> bool {
    let agrees = |posting: &Posting| {
        posting.id <= LAST_NUMBER
            && (1..=windows.last).contains(&posting.window)
            && posting.count != 0
            && posting.count.unsigned_abs() <= COUNT
            && (posting.window != windows.open || is_open_count(windows, posting.count))
    };
    buffer.iter().all(agrees)
}

/// The open window's counts only grow, each by one an event.
fn is_open_count(windows: &Windows, count: i16) -> bool {
    count >= 1 && count.unsigned_abs() <= windows.events
}

fn partitions_fit(card: usize, partitions: &[Partition]) -> bool {
    let content = card / BLOCK * CONTENT;
    partitions
        .iter()
        .all(|partition| partition.length as usize <= content)
}

/// Every partition has postings, so that it has a lowest window and a highest one.
fn spans_are_windows(partitions: &[Partition]) -> bool {
    partitions
        .iter()
        .all(|partition| 1 <= partition.lowest && partition.lowest <= partition.highest)
}

fn levels_never_rise(partitions: &[Partition]) -> bool {
    partitions
        .windows(2)
        .all(|pair| pair[0].level >= pair[1].level)
}

fn levels_are_not_overfull(partitions: &[Partition]) -> bool {
    let count = |level| partitions.iter().filter(|p| p.level == level).count();
    partitions.iter().all(|p| p.level <= LAST_LEVEL)
        && (0..=LAST_LEVEL).all(|level| count(level) <= most_of_level(level))
}

/// A merge in progress has a due level to take from; without one the record is zeros.
fn merge_has_work(merge: &MergeJob, partitions: &[Partition]) -> bool {
    if merge.steps == 0 {
        *merge == MergeJob::default()
    } else {
        due_level(partitions).is_some()
    }
}
