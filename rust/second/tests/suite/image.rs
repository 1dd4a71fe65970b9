//! What the bytes must be, worked out from the ledger's account.

use second::ledger::account::{Account, Due, Entry, Part};
use second::state::State;
use std::collections::BTreeMap;

pub const BLOCK: usize = 4096;
pub const CONTENT: usize = 4092;
pub const FREE: [u8; BLOCK] = [255; BLOCK];

pub fn word(bytes: &[u8], at: usize) -> u32 {
    u32::from_le_bytes(bytes[at..at + 4].try_into().unwrap())
}

/// The chain of `count` blocks from the first on.
pub fn walk(card: &[u8], first: usize, count: usize) -> Vec<usize> {
    let mut blocks = vec![first];
    while blocks.len() < count {
        let last = blocks[blocks.len() - 1];
        blocks.push(word(card, last * BLOCK + CONTENT) as usize);
    }
    blocks
}

/// A posting's four bytes.
fn posting(&(_, window, count): &Entry) -> [u8; 4] {
    let sign = if count < 0 { 0x8000 } else { 0 };
    (window * 0x1_0000 + sign + count.unsigned_abs() as u32).to_le_bytes()
}

/// The lists' lengths by identifier.
fn lists(part: &Part) -> BTreeMap<usize, usize> {
    let mut lists = BTreeMap::new();
    for entry in &part.entries {
        *lists.entry(entry.0).or_insert(0) += 1;
    }
    lists
}

/// The lowest and the highest window.
pub fn span(part: &Part) -> [u32; 2] {
    let mut windows: Vec<u32> = part.entries.iter().map(|entry| entry.1).collect();
    windows.sort_unstable();
    [windows[0], windows[windows.len() - 1]]
}

/// All bytes of a finished partition.
pub fn encode(part: &Part) -> Vec<u8> {
    let lists = lists(part);
    let (t, p) = (lists.len(), part.entries.len());
    let mut bytes = Vec::new();
    for field in [t, p, 32, 32 + 12 * t, 32 + 12 * t + 4 * p, part.level] {
        bytes.extend((field as u32).to_le_bytes());
    }
    bytes.extend(span(part).into_iter().flat_map(u32::to_le_bytes));
    let mut first = 0;
    for (id, length) in lists {
        bytes.extend((id as u16).to_le_bytes());
        bytes.extend([0, 0]);
        bytes.extend((length as u32).to_le_bytes());
        bytes.extend((first as u32).to_le_bytes());
        first += length;
    }
    bytes.extend(part.entries.iter().flat_map(posting));
    bytes
}

/// All bytes of an output after so many steps.
pub fn encode_unfinished(due: &Due, steps: usize) -> Vec<u8> {
    let mut bytes = vec![255; due.result.length()];
    let mut at = 32 + 12 * lists(&due.result).len();
    let taken = due.pairs.iter().take(16 * steps);
    for entry in taken.filter(|entry| entry.2 != 0) {
        bytes[at..at + 4].copy_from_slice(&posting(entry));
        at += 4;
    }
    bytes
}

/// Lays content and links into the blocks of a chain that are expected.
fn lay(expected: &mut BTreeMap<usize, Vec<u8>>, blocks: &[usize], content: &[u8]) {
    for (place, &number) in blocks.iter().enumerate() {
        let mut block = FREE.to_vec();
        let piece = &content[place * CONTENT..content.len().min((place + 1) * CONTENT)];
        block[..piece.len()].copy_from_slice(piece);
        let link = blocks.get(place + 1).map_or(65_534, |&next| next as u32);
        block[CONTENT..].copy_from_slice(&link.to_le_bytes());
        assert!(expected.insert(number, block).is_none(), "block in two");
    }
}

/// Writes content into a chain of these blocks.
pub fn place(card: &mut [u8], blocks: &[usize], content: &[u8]) {
    let mut laid = BTreeMap::new();
    lay(&mut laid, blocks, content);
    for (number, block) in laid {
        card[number * BLOCK..][..BLOCK].copy_from_slice(&block);
    }
}

/// Checks every byte of the card against the account.
pub fn check_card(state: &State, card: &[u8], account: &Account) {
    let mut expected = BTreeMap::new();
    for (record, part) in state.partitions.to_list().iter().zip(&account.parts) {
        let blocks = walk(card, record.first.into(), part.blocks());
        lay(&mut expected, &blocks, &encode(part));
        assert_eq!(decode(card, &blocks), part.entries);
    }
    if account.steps > 0 {
        let due = account.due().expect("a merge in progress");
        let blocks = due.result.blocks();
        if blocks > 0 {
            let blocks = walk(card, state.merge.first.into(), blocks);
            let content = encode_unfinished(&due, account.steps);
            lay(&mut expected, &blocks, &content);
        }
    }
    for (number, block) in card.chunks_exact(BLOCK).enumerate() {
        let wanted = expected.get(&number).map_or(&FREE[..], |block| block);
        assert!(block == wanted, "block {number}");
    }
}

/// The postings of a finished partition, read back.
pub fn decode(card: &[u8], blocks: &[usize]) -> Vec<Entry> {
    let mut bytes = Vec::new();
    for number in blocks {
        bytes.extend(&card[number * BLOCK..][..CONTENT]);
    }
    let mut entries = Vec::new();
    for place in 0..word(&bytes, 0) as usize {
        let entry = 32 + 12 * place;
        let id = word(&bytes, entry) as usize;
        let first = word(&bytes, entry + 8);
        for index in first..first + word(&bytes, entry + 4) {
            let posting = word(&bytes, word(&bytes, 12) as usize + 4 * index as usize);
            let size = i64::from(posting % 0x8000);
            let count = if posting & 0x8000 == 0 { size } else { -size };
            entries.push((id, posting / 0x1_0000, count));
        }
    }
    entries
}
