//! The card: blocks, the chains that link them, and their content.

use crate::limits::{BLOCK, CONTENT, NO_BLOCK};

/// What a free block holds.
const FREE: [u8; BLOCK] = [255; BLOCK];

/// How many blocks hold this many bytes of content.
pub fn blocks_for(length: u32) -> usize {
    (length as usize).div_ceil(CONTENT)
}

fn block(card: &[u8], number: usize) -> &[u8] {
    &card[number * BLOCK..][..BLOCK]
}

fn block_mut(card: &mut [u8], number: usize) -> &mut [u8] {
    &mut card[number * BLOCK..][..BLOCK]
}

/// The next `count` free blocks, upward after the one last taken and round the
/// end, or `None` if there are fewer.
pub fn free_blocks(card: &[u8], taken: u16, count: usize) -> Option<Vec<usize>> {
    let blocks = card.len() / BLOCK;
    let after = usize::from(taken) + 1;
    let free: Vec<usize> = (after..after + blocks)
        .map(|number| number % blocks)
        .filter(|&number| block(card, number) == FREE)
        .take(count)
        .collect();
    (free.len() == count).then_some(free)
}

/// Links the blocks to a chain, in their order.
pub fn link(card: &mut [u8], blocks: &[usize]) {
    for (place, &number) in blocks.iter().enumerate() {
        let next = match blocks.get(place + 1) {
            Some(&next) => next as u32,
            None => u32::from(NO_BLOCK),
        };
        block_mut(card, number)[CONTENT..].copy_from_slice(&next.to_le_bytes());
    }
}

/// The chain of `count` blocks from the first on, or `None` if a link leaves
/// the card or the chain ends elsewhere.
pub fn chain(card: &[u8], first: u16, count: usize) -> Option<Vec<usize>> {
    let mut blocks = Vec::new();
    let mut next = u32::from(first);
    for _ in 0..count {
        let number = next as usize;
        if number >= card.len() / BLOCK {
            return None;
        }
        blocks.push(number);
        next = word(block(card, number), CONTENT);
    }
    (next == u32::from(NO_BLOCK)).then_some(blocks)
}

/// The content of a chain, one block's after the other.
pub fn content(card: &[u8], blocks: &[usize]) -> Vec<u8> {
    blocks
        .iter()
        .flat_map(|&number| &block(card, number)[..CONTENT])
        .copied()
        .collect()
}

/// Writes bytes into the content of a chain, from an offset on.
pub fn write(card: &mut [u8], blocks: &[usize], offset: usize, bytes: &[u8]) {
    for (place, &byte) in (offset..).zip(bytes) {
        block_mut(card, blocks[place / CONTENT])[place % CONTENT] = byte;
    }
}

/// Makes blocks free again.
pub fn erase(card: &mut [u8], blocks: &[usize]) {
    for &number in blocks {
        block_mut(card, number).fill(255);
    }
}

/// The four-byte field at an offset.
pub fn word(bytes: &[u8], offset: usize) -> u32 {
    let field = &bytes[offset..offset + 4];
    u32::from_le_bytes([field[0], field[1], field[2], field[3]])
}
