//! Write the buffer to the card.

use crate::card::{blocks_for, free_blocks, link, write};
use crate::limits::{BLOCK, LEVEL_ZERO};
use crate::partition::{head, packed, record_of};
use crate::refusal::Refusal;
use crate::rules::{check_card, check_state};
use crate::state::{Buffer, Partition, Partitions, State};

/// Writes the buffered postings to the card as one partition of level 0. An
/// empty buffer writes nothing.
pub fn flush(state: &mut State, card: &mut [u8]) -> Result<(), Refusal> {
    check_state(state)?;
    check_card(state, card)?;
    if state.buffer.used == 0 {
        return Ok(());
    }
    write_buffer(state, card)
}

/// Writes a buffer that is not empty, where nothing else is left to refuse.
pub(super) fn write_buffer(state: &mut State, card: &mut [u8]) -> Result<(), Refusal> {
    let mut partitions = state.partitions.to_list();
    if partitions.iter().filter(|p| p.level == 0).count() >= LEVEL_ZERO {
        return Err(Refusal::FullLevel);
    }
    if 2 * (finished_blocks(&partitions) + 1) > card.len() / BLOCK {
        return Err(Refusal::FullCard);
    }
    let blocks = free_blocks(card, state.taken, 1).ok_or(Refusal::NoFreeBlocks)?;
    let postings = state.buffer.to_list();
    let content = [head(0, &postings), packed(&postings)].concat();
    link(card, &blocks);
    write(card, &blocks, 0, &content);
    state.taken = blocks[0] as u16;
    partitions.push(record_of(state.taken, 0, &postings));
    state.partitions = Partitions::from_list(&partitions);
    state.buffer = Buffer::default();
    Ok(())
}

/// The blocks of all finished partitions, by their records.
fn finished_blocks(partitions: &[Partition]) -> usize {
    partitions.iter().map(|p| blocks_for(p.length)).sum()
}
