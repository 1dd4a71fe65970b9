//! A probe's bytes, read for display.
//!
//! It is written from docs/FORMAT.md and proves nothing: it shows what lies where, and says what and where where the bytes are malformed.

use crate::rules::{Fault, Image};
use gemsilver::{BLOCK, ENTRY, IMAGE, Probe, Stretch};
use std::cmp::Reverse;
use std::collections::{BTreeMap, BTreeSet};
use std::ops::Range;

/// Bytes of a block before its link.
const CONTENT: usize = 4_092;
/// What a free block holds.
static FREE: [u8; BLOCK] = [255; BLOCK];
/// The link of a last block, and the first block of an empty output.
const NO_BLOCK: u32 = 65_534;
/// Pairs that a merge step takes.
const STEP: usize = 16;

/// The image's words of the block last taken and of the merge in progress.
const TAKEN: usize = 712;
const MERGE: usize = 713;
/// The image's word that counts the partitions, how many there may be, and the words of each record.
const RECORDS: (usize, usize, usize) = (456, 51, 5);

/// A signed count of one identifier in one window.
#[derive(Clone, Copy, PartialEq, Eq, Debug)]
pub struct Posting {
    pub id: usize,
    pub window: u32,
    pub count: i32,
}

/// A finished partition.
#[derive(Clone, PartialEq, Eq, Debug)]
pub struct Partition {
    pub level: u32,
    pub bytes: u32,
    /// The lowest and the highest window of its postings.
    pub lowest: u32,
    pub highest: u32,
    pub blocks: Vec<usize>,
    pub postings: Vec<Posting>,
}

impl Partition {
    /// Whether a query over a stretch passes it over.
    pub fn is_passed_over(&self, stretch: Stretch) -> bool {
        self.highest < stretch.first.into() || self.lowest > stretch.last.into()
    }
}

/// The merge in progress.
#[derive(Clone, PartialEq, Eq, Debug)]
pub struct Merge {
    /// Steps taken, and steps in all.
    pub step: usize,
    pub steps: usize,
    /// The level of its inputs, and that of its output.
    pub level: u32,
    pub into: u32,
    /// The places of its inputs in the list of partitions.
    pub inputs: Range<usize>,
    /// Pairs taken, and pairs in all.
    pub taken: usize,
    pub pairs: usize,
    /// The output's blocks and bytes; none where every sum is 0.
    pub blocks: Vec<usize>,
    pub bytes: u32,
    /// The postings that it will have, and how many of them are written.
    pub result: Vec<Posting>,
    pub written: usize,
}

impl Merge {
    /// The postings written so far.
    pub fn written(&self) -> &[Posting] {
        &self.result[..self.written]
    }
}

/// Whose a block is.
#[derive(Clone, Copy, PartialEq, Eq, Debug)]
pub enum Owner {
    Free,
    /// The partition at this place of the list.
    Partition(usize),
    Output,
    /// Neither free nor of anything.
    Other,
}

/// All that a probe holds.
#[derive(Clone, PartialEq, Eq, Debug)]
pub struct View {
    pub entries: usize,
    pub last: u32,
    /// How many closed windows are live.
    pub live: u32,
    /// The open window, or 0, its events and its identifiers.
    pub open: u32,
    pub events: u32,
    pub listed: Vec<usize>,
    /// The register's identifiers by number.
    pub names: Vec<Vec<u8>>,
    pub buffer: Vec<Posting>,
    pub partitions: Vec<Partition>,
    /// The block last taken.
    pub taken: u32,
    pub merge: Option<Merge>,
    pub owners: Vec<Owner>,
}

impl View {
    /// Reads a probe.
    pub fn of<B: AsRef<[u8]>>(probe: &Probe<B>) -> Result<View, Fault> {
        let (card, words) = (probe.card(), words(probe.image())?);
        let image = Image(&words);
        image.check()?;
        if words[0] as usize != card.len() || words[1] as usize != probe.register().len() {
            return Err("image: words 0 and 1 are not the lengths of card and register".into());
        }
        let partitions = partitions(&image, card)?;
        let merge = merge(&words[MERGE..], &partitions, card)?;
        let listed = image.used(6, 64, 1).into_iter();
        Ok(View {
            entries: probe.register().len() / ENTRY,
            last: words[2],
            live: words[3],
            open: words[4],
            events: words[5],
            listed: listed.map(|place| place[0] as usize).collect(),
            names: names(probe.register())?,
            buffer: buffered(&image),
            taken: words[TAKEN],
            owners: owners(card, &partitions, merge.as_ref())?,
            partitions,
            merge,
        })
    }

    /// The highest level that has enough partitions for a merge.
    pub fn due(&self) -> Option<u32> {
        due(&levels(&self.partitions)).map(|(level, _)| level)
    }

    /// Whether an image's records make a level due. The card is not read for it.
    pub fn is_due(image: &[u8]) -> bool {
        words(image).is_ok_and(|words| {
            let (count, most, each) = RECORDS;
            let records = Image(&words).used(count, most, each).into_iter();
            due(&records.map(|record| record[1]).collect::<Vec<u32>>()).is_some()
        })
    }

    /// The sum of each pair over all finished partitions and the buffer.
    pub fn sums(&self) -> Sums {
        let on_card = self.partitions.iter().map(|stored| &stored.postings);
        sums(on_card.chain([&self.buffer]).flatten())
    }

    /// How many blocks are of such an owner.
    pub fn blocks(&self, is_such: impl Fn(&Owner) -> bool) -> usize {
        self.owners.iter().filter(|owner| is_such(owner)).count()
    }
}

/// The image's words.
fn words(image: &[u8]) -> Result<Vec<u32>, Fault> {
    if image.len() != IMAGE {
        return Err(format!("image: {} bytes, not {IMAGE}", image.len()));
    }
    Ok(all_words(image))
}

fn all_words(bytes: &[u8]) -> Vec<u32> {
    let words = bytes.chunks_exact(4);
    let word = |bytes: &[u8]| u32::from_le_bytes([bytes[0], bytes[1], bytes[2], bytes[3]]);
    words.map(word).collect()
}

fn buffered(image: &Image) -> Vec<Posting> {
    let posting = |place: &[u32]| Posting {
        id: place[0] as usize,
        window: place[1],
        // The count is raised by 32,768.
        count: place[2] as i32 - 32_768,
    };
    let places = image.used(71, 128, 3).into_iter();
    places.map(posting).collect()
}

/// The identifiers in the register, by number.
fn names(register: &[u8]) -> Result<Vec<Vec<u8>>, Fault> {
    let (mut names, mut seen) = (Vec::new(), BTreeSet::new());
    for (place, entry) in register.chunks_exact(ENTRY).enumerate() {
        let length = usize::from(entry[0]);
        if length >= ENTRY {
            return Err(format!("register: entry {place} has the length {length}"));
        }
        let (name, rest) = entry[1..].split_at(length);
        if rest.iter().any(|&byte| byte != 0) {
            return Err(format!(
                "register: entry {place} is not zero after its identifier"
            ));
        }
        if length > 0 && names.len() < place {
            return Err(format!("register: entry {place} follows an unused one"));
        }
        if !seen.insert(name) && length > 0 {
            return Err(format!("register: entry {place} is there before"));
        }
        if length > 0 {
            names.push(name.to_vec());
        }
    }
    Ok(names)
}

/// The content of a chain of so many blocks, as words, and its blocks.
fn chain(card: &[u8], first: u32, count: usize) -> Result<(Vec<usize>, Vec<u32>), Fault> {
    let (mut blocks, mut content) = (Vec::new(), Vec::new());
    let mut next = first;
    for _ in 0..count {
        let number = next as usize;
        let Some(block) = card.chunks_exact(BLOCK).nth(number) else {
            return Err(format!("{number} is no block of the card"));
        };
        if blocks.contains(&number) {
            return Err(format!("the chain comes to block {number} twice"));
        }
        blocks.push(number);
        content.extend(all_words(&block[..CONTENT]));
        next = all_words(&block[CONTENT..])[0];
    }
    if next != NO_BLOCK {
        let last = blocks.last().copied().unwrap_or_default();
        return Err(format!("the link of its last block, {last}, is {next}"));
    }
    Ok((blocks, content))
}

/// How many blocks hold so many bytes.
fn blocks_for(bytes: u32) -> usize {
    (bytes as usize).div_ceil(CONTENT)
}

fn partitions(image: &Image, card: &[u8]) -> Result<Vec<Partition>, Fault> {
    let (count, most, each) = RECORDS;
    let records = image.used(count, most, each).into_iter();
    let read = |(place, record): (usize, &[u32])| {
        partition(record, card).map_err(|why| format!("partition {}: {why}", place + 1))
    };
    records.enumerate().map(read).collect()
}

fn partition(record: &[u32], card: &[u8]) -> Result<Partition, Fault> {
    let &[first, level, bytes, lowest, highest] = record else {
        return Err("its record is cut off".into());
    };
    if bytes == 0 {
        return Err("its length is 0".into());
    }
    let (blocks, content) = chain(card, first, blocks_for(bytes))?;
    let (identifiers, postings) = header(&content, record)?;
    let postings = postings_of(&content, identifiers, postings)?;
    let (least, most) = span(&postings);
    if (least, most) != (lowest, highest) {
        return Err(format!(
            "its lists have windows {least} to {most}, its header tells {lowest} to {highest}"
        ));
    }
    Ok(Partition {
        level,
        bytes,
        lowest,
        highest,
        blocks,
        postings,
    })
}

/// The lowest and the highest window of postings, of which there are some.
pub fn span(postings: &[Posting]) -> (u32, u32) {
    let windows = || postings.iter().map(|posting| posting.window);
    let lowest = windows().min().unwrap_or(0);
    (lowest, windows().max().unwrap_or(0))
}

/// How many identifiers and postings a header tells, if all its fields agree with each other and with the record.
fn header(content: &[u32], record: &[u32]) -> Result<(usize, usize), Fault> {
    let [level, bytes, lowest, highest] = [1, 2, 3, 4].map(|place| record[place]);
    let (identifiers, postings) = (u64::from(content[0]), u64::from(content[1]));
    let start = 32 + 12 * identifiers;
    let told = [
        ("where the entries begin", 32),
        ("where the postings begin", start),
        ("the total length", start + 4 * postings),
        ("the level", u64::from(level)),
        ("the lowest window", u64::from(lowest)),
        ("the highest window", u64::from(highest)),
    ];
    for (field, (what, expected)) in (2..).zip(told) {
        let found = content[field];
        if u64::from(found) != expected {
            let byte = 4 * field;
            return Err(format!(
                "{what}, at byte {byte}, is {found}, not {expected}"
            ));
        }
    }
    if start + 4 * postings != u64::from(bytes) || identifiers == 0 || postings == 0 {
        return Err(format!("its header does not tell its length, {bytes}"));
    }
    Ok((identifiers as usize, postings as usize))
}

/// The postings by the entries, which must follow each other.
fn postings_of(content: &[u32], identifiers: usize, count: usize) -> Result<Vec<Posting>, Fault> {
    let entries: Vec<&[u32]> = content[8..8 + 3 * identifiers].chunks_exact(3).collect();
    let packed = &content[8 + 3 * identifiers..][..count];
    let mut postings: Vec<Posting> = Vec::new();
    for (place, entry) in entries.iter().enumerate() {
        let (id, length, first) = (entry[0] as usize, entry[1] as usize, entry[2] as usize);
        let ascends = place == 0 || entries[place - 1][0] < entry[0];
        let fits = length >= 1 && length <= count - postings.len();
        if id > 1_023 || !ascends || first != postings.len() || !fits {
            return Err(format!("entry {place} is {id}, {length}, {first}"));
        }
        let list = packed[first..first + length].iter();
        let list: Vec<Posting> = list.map(|&word| unpacked(id, word)).collect();
        let falls = list.windows(2).all(|two| two[0].window > two[1].window);
        let is_posting = |posting: &Posting| posting.count != 0 && posting.window != 0;
        if !falls || !list.iter().all(is_posting) {
            return Err(format!("the list of entry {place} is malformed"));
        }
        postings.extend(list);
    }
    if postings.len() != count {
        return Err(format!("its entries have {} postings", postings.len()));
    }
    Ok(postings)
}

fn unpacked(id: usize, word: u32) -> Posting {
    let size = (word & 0x7fff) as i32;
    Posting {
        id,
        window: word >> 16,
        count: if word & 0x8000 == 0 { size } else { -size },
    }
}

fn packed(posting: &Posting) -> u32 {
    let sign = if posting.count < 0 { 0x8000 } else { 0 };
    posting.window << 16 | sign | posting.count.unsigned_abs()
}

/// The sum of each pair, by identifier ascending and window falling.
pub type Sums = BTreeMap<(usize, Reverse<u32>), i32>;

fn sums<'a>(postings: impl Iterator<Item = &'a Posting>) -> Sums {
    let mut sums = Sums::new();
    for posting in postings {
        *sums
            .entry((posting.id, Reverse(posting.window)))
            .or_insert(0) += posting.count;
    }
    sums
}

fn levels(partitions: &[Partition]) -> Vec<u32> {
    partitions.iter().map(|stored| stored.level).collect()
}

/// The highest due level and the places of its oldest partitions: 8 of them, 3 of level 5.
fn due(levels: &[u32]) -> Option<(u32, Range<usize>)> {
    (0..=5).rev().find_map(|level| {
        let wanted = if level == 5 { 3 } else { 8 };
        let first = levels.iter().position(|&other| other == level)?;
        let inputs = levels.get(first..first + wanted)?;
        let is_due = inputs.iter().all(|&other| other == level);
        is_due.then_some((level, first..first + wanted))
    })
}

/// The merge in progress: its record is the first output block, the output's length and the steps taken.
fn merge(record: &[u32], partitions: &[Partition], card: &[u8]) -> Result<Option<Merge>, Fault> {
    let (first, bytes, step) = (record[0], record[1], record[2] as usize);
    if step == 0 {
        return Ok(None);
    }
    let (level, inputs) = due(&levels(partitions)).ok_or("merge: no level is due")?;
    let sums = sums(partitions[inputs.clone()].iter().flat_map(|p| &p.postings));
    if let Some(((id, Reverse(window)), sum)) = sums.iter().find(|(_, sum)| sum.abs() > 32_767) {
        return Err(format!(
            "merge: identifier {id} counts {sum} in window {window}"
        ));
    }
    let pairs = sums.iter().filter(|(_, sum)| **sum != 0);
    let posting = |(&(id, Reverse(window)), &count)| Posting { id, window, count };
    let result: Vec<Posting> = pairs.map(posting).collect();
    let taken = step.saturating_mul(STEP).min(sums.len());
    let written = sums.values().take(taken).filter(|sum| **sum != 0).count();
    let blocks = output(first, bytes, &result, written, card);
    let merge = Merge {
        step,
        steps: sums.len().div_ceil(STEP),
        level,
        into: (level + 1).min(5),
        inputs,
        taken,
        pairs: sums.len(),
        blocks: blocks.map_err(|why| format!("merge: {why}"))?,
        bytes,
        result,
        written,
    };
    if merge.step >= merge.steps {
        return Err(format!("merge: {step} steps are more than it has"));
    }
    Ok(Some(merge))
}

/// The output's blocks, if it has what was written so far and nothing else.
fn output(
    first: u32,
    bytes: u32,
    result: &[Posting],
    written: usize,
    card: &[u8],
) -> Result<Vec<usize>, Fault> {
    let lists = result.chunk_by(|one, next| one.id == next.id).count();
    let expected = if result.is_empty() {
        0
    } else {
        32 + 12 * lists + 4 * result.len()
    };
    if bytes as usize != expected {
        return Err(format!("its output's length is {bytes}, not {expected}"));
    }
    if result.is_empty() {
        return if first == NO_BLOCK {
            Ok(Vec::new())
        } else {
            Err(format!("its output is empty, and its first block {first}"))
        };
    }
    let (blocks, content) = chain(card, first, blocks_for(bytes))?;
    let start = 8 + 3 * lists;
    for (place, &word) in content.iter().enumerate() {
        let posting = place
            .checked_sub(start)
            .and_then(|at| result[..written].get(at));
        let expected = posting.map_or(u32::MAX, packed);
        if word != expected {
            let (block, byte) = (blocks[4 * place / CONTENT], 4 * place % CONTENT);
            return Err(format!(
                "its output in block {block} is wrong at byte {byte}"
            ));
        }
    }
    Ok(blocks)
}

/// Whose each block is; one in two places is a fault.
fn owners(
    card: &[u8],
    partitions: &[Partition],
    merge: Option<&Merge>,
) -> Result<Vec<Owner>, Fault> {
    let mut owners: Vec<Owner> = card
        .chunks_exact(BLOCK)
        .map(|block| match block == FREE {
            true => Owner::Free,
            false => Owner::Other,
        })
        .collect();
    let mut own = |blocks: &[usize], owner: Owner| {
        for &block in blocks {
            if !matches!(owners[block], Owner::Free | Owner::Other) {
                return Err(format!("block {block} is in two places"));
            }
            owners[block] = owner;
        }
        Ok(())
    };
    for (place, stored) in partitions.iter().enumerate() {
        own(&stored.blocks, Owner::Partition(place))?;
    }
    own(merge.map_or(&[], |merge| &merge.blocks), Owner::Output)?;
    Ok(owners)
}
