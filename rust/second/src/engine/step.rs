//! Merge a step further.

use crate::card::{blocks_for, chain, content, erase, free_blocks, link, write};
use crate::faults::Fault;
use crate::limits::NO_BLOCK;
use crate::merge::{Merge, due_level};
use crate::partition::{
    Stored, all_blocks, head, packed, packed_length, posting_space, read_all, record_of,
};
use crate::refusal::Refusal;
use crate::rules::{check_card, check_state};
use crate::state::{MergeJob, Partitions, State};

/// Takes the next pairs of the merge in progress, or begins the one that is due.
pub fn step(state: &mut State, card: &mut [u8]) -> Result<(), Refusal> {
    step_with(None, state, card)
}

/// The step of the right engine, or of the one with a fault.
pub(crate) fn step_with(
    fault: Option<Fault>,
    state: &mut State,
    card: &mut [u8],
) -> Result<(), Refusal> {
    check_state(state)?;
    check_card(state, card)?;
    let partitions = state.partitions.to_list();
    let stored = read_all(&partitions, card).ok_or(Refusal::Malformed)?;
    let level = due_level(&partitions).ok_or(Refusal::NothingDue)?;
    let merge = Merge::of_level(level, &partitions, &stored).ok_or(Refusal::Malformed)?;
    let merge = match fault {
        Some(Fault::DroppedNegatives) => merge.without_negatives(),
        _ => merge,
    };
    let blocks = if state.merge.steps == 0 {
        begin(state, card, &merge)?
    } else {
        output_blocks(&state.merge, card, &merge, &stored).ok_or(Refusal::Malformed)?
    };
    take_pairs(state, card, &merge, &blocks);
    if !merge.has_pairs_after(state.merge.steps) {
        finish(state, card, &merge, &blocks, &stored);
    }
    Ok(())
}

/// Takes and links all blocks of the output.
fn begin(state: &mut State, card: &mut [u8], merge: &Merge) -> Result<Vec<usize>, Refusal> {
    let count = blocks_for(merge.length());
    let blocks = free_blocks(card, state.taken, count).ok_or(Refusal::NoFreeBlocks)?;
    link(card, &blocks);
    if let Some(&last) = blocks.last() {
        state.taken = last as u16;
    }
    state.merge = MergeJob {
        first: blocks.first().map_or(NO_BLOCK, |&first| first as u16),
        length: merge.length(),
        steps: 0,
    };
    Ok(blocks)
}

/// The blocks of the output in progress, or `None` if it is not what the inputs
/// give so far, lies in a finished partition, or has taken all pairs.
fn output_blocks(
    job: &MergeJob,
    card: &[u8],
    merge: &Merge,
    stored: &[Stored],
) -> Option<Vec<usize>> {
    if job.length != merge.length() || !merge.has_pairs_after(job.steps) {
        return None;
    }
    if merge.result.is_empty() {
        return (job.first == NO_BLOCK).then(Vec::new);
    }
    let blocks = chain(card, job.first, blocks_for(job.length))?;
    let finished = all_blocks(stored);
    let found = content(card, &blocks);
    let holds = found == merge.content_after(job.steps, found.len())
        && !blocks.iter().any(|block| finished.contains(block));
    holds.then_some(blocks)
}

/// Writes the postings that the next pairs add to the output.
fn take_pairs(state: &mut State, card: &mut [u8], merge: &Merge, blocks: &[usize]) {
    let before = merge.postings_after(state.merge.steps);
    state.merge.steps += 1;
    let after = merge.postings_after(state.merge.steps);
    let offset = posting_space(&merge.result) + packed_length(before);
    write(card, blocks, offset, &packed(&merge.result[before..after]));
}

/// Puts the result in its inputs' place and frees their blocks.
fn finish(state: &mut State, card: &mut [u8], merge: &Merge, blocks: &[usize], stored: &[Stored]) {
    let mut partitions = state.partitions.to_list();
    let has_result = !merge.result.is_empty();
    let result = has_result.then(|| record_of(state.merge.first, merge.level, &merge.result));
    if has_result {
        write(card, blocks, 0, &head(merge.level, &merge.result));
    }
    partitions.splice(merge.inputs.clone(), result);
    erase(card, &all_blocks(&stored[merge.inputs.clone()]));
    state.partitions = Partitions::from_list(&partitions);
    state.merge = MergeJob::default();
}
