//! Partitions: how postings lie in the content of a chain.

use crate::card::{blocks_for, chain, content, word};
use crate::limits::LAST_NUMBER;
use crate::postings::{pack, unpack};
use crate::state::{Partition, Posting};
use std::collections::{BTreeMap, BTreeSet};

/// Bytes of the header.
const HEADER: usize = 32;
/// Bytes of an identifier's entry.
const ENTRY: usize = 12;
/// Bytes of a packed posting.
const POSTING: usize = 4;

/// Where an identifier's list lies.
struct Entry {
    id: u16,
    postings: usize,
    first: usize,
}

/// A finished partition as read from the card.
pub struct Stored {
    /// Its blocks, in chain order.
    pub blocks: Vec<usize>,
    /// Its record, which its header agrees with.
    pub record: Partition,
    entries: Vec<Entry>,
    content: Vec<u8>,
}

/// Reads all finished partitions, or `None` if a chain, a header or an entry is
/// malformed or a block is in two places.
pub fn read_all(records: &[Partition], card: &[u8]) -> Option<Vec<Stored>> {
    let stored: Vec<Stored> = records
        .iter()
        .map(|record| read(record, card))
        .collect::<Option<_>>()?;
    let places = all_blocks(&stored);
    let different: BTreeSet<&usize> = places.iter().collect();
    (different.len() == places.len()).then_some(stored)
}

/// The blocks of all these partitions.
pub fn all_blocks(stored: &[Stored]) -> Vec<usize> {
    stored
        .iter()
        .flat_map(|partition| partition.blocks.clone())
        .collect()
}

fn read(record: &Partition, card: &[u8]) -> Option<Stored> {
    let count = blocks_for(record.length);
    if count == 0 {
        return None;
    }
    let blocks = chain(card, record.first, count)?;
    let content = content(card, &blocks);
    let (identifiers, postings) = read_header(&content, record)?;
    let entries = read_entries(&content, identifiers, postings)?;
    Some(Stored {
        blocks,
        record: *record,
        entries,
        content,
    })
}

/// The numbers of identifiers and of postings, if every field of the header is right.
fn read_header(content: &[u8], record: &Partition) -> Option<(usize, usize)> {
    let identifiers = word(content, 0);
    let postings = word(content, 4);
    let start = HEADER as u64 + ENTRY as u64 * u64::from(identifiers);
    let total = start + POSTING as u64 * u64::from(postings);
    let right = identifiers >= 1
        && postings >= 1
        && u64::from(word(content, 8)) == HEADER as u64
        && u64::from(word(content, 12)) == start
        && u64::from(word(content, 16)) == total
        && word(content, 20) == u32::from(record.level)
        && word(content, 24) == u32::from(record.lowest)
        && word(content, 28) == u32::from(record.highest)
        && u64::from(record.length) == total;
    right.then_some((identifiers as usize, postings as usize))
}

/// The entries, if they ascend and their lists follow each other without a gap
/// and hold all postings.
fn read_entries(content: &[u8], identifiers: usize, postings: usize) -> Option<Vec<Entry>> {
    let mut entries: Vec<Entry> = Vec::new();
    let mut before: usize = 0;
    for place in 0..identifiers {
        let entry = read_entry(content, HEADER + ENTRY * place)?;
        let ascends = entries.last().is_none_or(|last| last.id < entry.id);
        if !ascends || entry.first != before {
            return None;
        }
        before = before.checked_add(entry.postings)?;
        entries.push(entry);
    }
    (before == postings).then_some(entries)
}

fn read_entry(content: &[u8], offset: usize) -> Option<Entry> {
    // The number's two bytes and the two zero bytes after it read as one field.
    let id = word(content, offset);
    let entry = Entry {
        id: id as u16,
        postings: word(content, offset + 4) as usize,
        first: word(content, offset + 8) as usize,
    };
    (id <= u32::from(LAST_NUMBER) && entry.postings >= 1).then_some(entry)
}

impl Stored {
    /// All postings, or `None` if a list is malformed or the lowest or highest window
    /// is not the one that the record tells.
    pub fn all_lists(&self) -> Option<Vec<Posting>> {
        let lists: Vec<Vec<Posting>> = self
            .entries
            .iter()
            .map(|entry| self.read_list(entry))
            .collect::<Option<_>>()?;
        let postings = lists.concat();
        let told = (self.record.lowest, self.record.highest);
        (span(&postings) == told).then_some(postings)
    }

    /// How many postings an identifier has.
    pub fn list_length(&self, id: u16) -> usize {
        let entry = self.entries.iter().find(|entry| entry.id == id);
        entry.map_or(0, |entry| entry.postings)
    }

    fn read_list(&self, entry: &Entry) -> Option<Vec<Posting>> {
        let start = HEADER + ENTRY * self.entries.len() + POSTING * entry.first;
        let list: Vec<Posting> = (0..entry.postings)
            .map(|place| unpack(entry.id, word(&self.content, start + POSTING * place)))
            .collect::<Option<_>>()?;
        let falls = list.windows(2).all(|pair| pair[0].window > pair[1].window);
        falls.then_some(list)
    }
}

/// The lowest and the highest window of postings; zeros for none.
fn span(postings: &[Posting]) -> (u16, u16) {
    let windows = || postings.iter().map(|posting| posting.window);
    let lowest = windows().min().unwrap_or(0);
    (lowest, windows().max().unwrap_or(0))
}

/// The record of a partition of these postings.
pub fn record_of(first: u16, level: u16, postings: &[Posting]) -> Partition {
    let (lowest, highest) = span(postings);
    Partition {
        first,
        level,
        length: length_of(postings),
        lowest,
        highest,
    }
}

/// The length of a partition of these postings; 0 for none.
pub fn length_of(postings: &[Posting]) -> u32 {
    if postings.is_empty() {
        return 0;
    }
    (posting_space(postings) + POSTING * postings.len()) as u32
}

/// Where the posting space of a partition of these postings starts.
pub fn posting_space(postings: &[Posting]) -> usize {
    HEADER + ENTRY * list_lengths(postings).len()
}

/// How many postings each identifier has.
fn list_lengths(postings: &[Posting]) -> BTreeMap<u16, u32> {
    let mut lengths = BTreeMap::new();
    for posting in postings {
        *lengths.entry(posting.id).or_insert(0) += 1;
    }
    lengths
}

/// Header and entries of a partition of these postings, which stand in buffer order.
pub fn head(level: u16, postings: &[Posting]) -> Vec<u8> {
    let lengths = list_lengths(postings);
    let (lowest, highest) = span(postings);
    let header = [
        lengths.len() as u32,
        postings.len() as u32,
        HEADER as u32,
        posting_space(postings) as u32,
        length_of(postings),
        u32::from(level),
        u32::from(lowest),
        u32::from(highest),
    ];
    let mut fields = header.to_vec();
    let mut before = 0;
    for (id, length) in lengths {
        fields.extend([u32::from(id), length, before]);
        before += length;
    }
    fields.into_iter().flat_map(u32::to_le_bytes).collect()
}

/// The packed postings, one after the other.
pub fn packed(postings: &[Posting]) -> Vec<u8> {
    postings
        .iter()
        .flat_map(|posting| pack(posting).to_le_bytes())
        .collect()
}

/// The bytes that so many packed postings take.
pub fn packed_length(postings: usize) -> usize {
    POSTING * postings
}
