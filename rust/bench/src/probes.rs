//! Probes to measure on: cards as full as they may be, and partitions to be merged.

use gemsilver::Entry;
use second::image;
use second::state::{Lengths, Partition, Posting, State, Windows};

const BLOCK: usize = 4_096;
const CONTENT: usize = 4_092;

/// What both engines are called on.
#[derive(Clone)]
pub struct Probe {
    pub state: State,
    pub image: Vec<u8>,
    pub card: Vec<u8>,
    pub register: Vec<u8>,
}

/// The identifier of a number, of 2 to 64 bytes.
pub fn name(number: usize) -> Vec<u8> {
    let mut name = vec![b'A'; 2 + number % 63];
    name[..2].copy_from_slice(&(number as u16).to_le_bytes());
    name
}

/// An identifier of 64 bytes that differs from the others of its kind in its last two alone.
pub fn alike(number: usize) -> Vec<u8> {
    let mut name = vec![b'A'; 64];
    name[62..].copy_from_slice(&(number as u16).to_le_bytes());
    name
}

/// An identifier of 64 bytes, like the others of its kind in its first 60, whose last two are chosen so that all of them have one hash
/// of 31 times the hash before and the next byte, modulo 1,024.
pub fn chained(number: usize) -> Vec<u8> {
    let mut name = vec![b'A'; 64];
    name[60..62].copy_from_slice(&(number as u16).to_le_bytes());
    let hash = name[..62]
        .iter()
        .fold(64, |hash, &byte| (31 * hash + usize::from(byte)) % 1_024);
    let left = (2_048 - 31 * 31 * hash % 1_024) % 1_024;
    let last = (0..256)
        .find(|first| (1_024 * 8 + left - 31 * first) % 1_024 < 256)
        .expect("two bytes give every hash");
    name[62] = last as u8;
    name[63] = ((1_024 * 8 + left - 31 * last) % 1_024) as u8;
    name
}

/// A full register of different identifiers.
pub fn register(entries: usize, name: impl Fn(usize) -> Vec<u8>) -> Vec<u8> {
    let mut register = vec![0; entries * 65];
    for (number, entry) in register.chunks_exact_mut(65).enumerate() {
        let name = name(number);
        entry[0] = name.len() as u8;
        entry[1..=name.len()].copy_from_slice(&name);
    }
    register
}

/// The content of a partition with a list of falling windows under each of so many identifiers.
fn content(level: u16, identifiers: usize, list: impl Fn(usize) -> Vec<u16>) -> Vec<u8> {
    let lists: Vec<Vec<u16>> = (0..identifiers).map(list).collect();
    let postings = lists.iter().map(Vec::len).sum();
    let start = 32 + 12 * identifiers;
    let mut words = vec![identifiers, postings, 32, start, start + 4 * postings];
    let windows = || lists.iter().flatten().copied();
    let span = [windows().min(), windows().max()].map(|window| window.expect("postings"));
    words.push(level.into());
    words.extend(span.map(usize::from));
    let mut first = 0;
    for (id, list) in lists.iter().enumerate() {
        words.extend([id, list.len(), first]);
        first += list.len();
    }
    for window in lists.into_iter().flatten().map(usize::from) {
        words.push(window << 16 | (1 + window % 9));
    }
    words
        .into_iter()
        .flat_map(|word| (word as u32).to_le_bytes())
        .collect()
}

/// Lays a partition into the blocks after the one last taken.
fn add(probe: &mut Probe, level: u16, content: &[u8]) {
    let first = usize::from(probe.state.taken) + 1;
    let count = content.len().div_ceil(CONTENT);
    for (place, piece) in content.chunks(CONTENT).enumerate() {
        let block = &mut probe.card[(first + place) * BLOCK..][..BLOCK];
        block[..piece.len()].copy_from_slice(piece);
        let next = if place + 1 < count {
            first + place + 1
        } else {
            65_534
        };
        block[CONTENT..].copy_from_slice(&(next as u32).to_le_bytes());
    }
    let partitions = &mut probe.state.partitions;
    // Lowest and highest window are the last two words of the header.
    let [lowest, highest] = [24, 28].map(|at| u16::from_le_bytes([content[at], content[at + 1]]));
    partitions.records[usize::from(partitions.used)] = Partition {
        first: first as u16,
        level,
        length: content.len() as u32,
        lowest,
        highest,
    };
    partitions.used += 1;
    probe.state.taken = (first + count - 1) as u16;
}

/// A probe without partitions, with an open window and a buffer half full. Block 0 counts as last taken.
fn empty(blocks: usize, entries: usize) -> Probe {
    let mut probe = Probe {
        state: State {
            lengths: Lengths {
                card: (blocks * BLOCK) as u32,
                register: entries as u32 * 65,
            },
            windows: Windows {
                last: 65_000,
                live: 60_000,
                open: 65_000,
                events: 100,
            },
            ..State::default()
        },
        image: Vec::new(),
        card: vec![255; blocks * BLOCK],
        register: register(entries, name),
    };
    buffer(&mut probe.state, 64);
    probe.image = image::write(&probe.state);
    probe
}

/// Buffers so many postings, of which a few are the open window's.
fn buffer(state: &mut State, used: u16) {
    state.buffer.used = used;
    for place in 0..used {
        state.buffer.postings[usize::from(place)] = Posting {
            id: place / 2,
            window: 65_000 - place % 2,
            count: 1 + (place % 7) as i16,
        };
    }
}

/// The windows from one on upward by a stride, falling.
fn windows(first: usize, stride: usize, count: usize) -> Vec<u16> {
    let number = |place: usize| (first + stride * place) as u16;
    (0..count).rev().map(number).collect()
}

/// A card of which a little less than half is in use, in nine partitions of all levels, each a third of what the ones before leave.
pub fn half_full(blocks: usize, entries: usize) -> Probe {
    let mut room = blocks / 2 - 12;
    let shares = [5, 5, 4, 4, 3, 2, 1, 0, 0].map(|level| {
        let share = (room / 3).max(1);
        room -= share.min(room);
        (level, share)
    });
    filled(blocks, entries, &shares)
}

/// A card as full, in as many partitions as the list may have, all of one length.
pub fn half_full_of_most(blocks: usize, entries: usize) -> Probe {
    let levels = [(5, 3), (4, 8), (3, 8), (2, 8), (1, 8), (0, 16)];
    let levels = levels.map(|(level, count)| vec![level; count]).concat();
    let share = (blocks / 2 - 12) / levels.len();
    let shares: Vec<(u16, usize)> = levels.into_iter().map(|level| (level, share)).collect();
    filled(blocks, entries, &shares)
}

/// A card with partitions of these levels and blocks. Older windows are in older partitions, and a window has at most 33 identifiers.
fn filled(blocks: usize, entries: usize, shares: &[(u16, usize)]) -> Probe {
    let mut probe = empty(blocks, entries);
    let mut before = 0;
    for &(level, share) in shares {
        let words = share * CONTENT / 4 - 8;
        let identifiers = entries.min(words / 8);
        let count = (words - 3 * identifiers) / identifiers;
        let content = content(level, identifiers, |id| {
            windows(1 + id % 32 + 32 * before, 32, count)
        });
        before += count;
        add(&mut probe, level, &content);
    }
    probe.image = image::write(&probe.state);
    probe
}

/// Eight partitions of so many postings each, to be merged: each pair is in two of them.
pub fn to_merge(postings: usize) -> Probe {
    let level = if postings > 128 { 1 } else { 0 };
    let blocks = (8 * (postings / 1_000 + 1) * 2 + 8).max(64);
    let mut probe = empty(blocks, 64);
    for number in 0..8 {
        let content = content(level, 16, |_| windows(1 + number / 2, 4, postings / 16));
        add(&mut probe, level, &content);
    }
    probe.image = image::write(&probe.state);
    probe
}

/// A probe with a fresh card and these entries in its register.
pub fn fresh(blocks: usize, register: Vec<u8>) -> Probe {
    let state = State {
        lengths: Lengths {
            card: (blocks * BLOCK) as u32,
            register: register.len() as u32,
        },
        taken: blocks as u16 - 1,
        ..State::default()
    };
    Probe {
        image: image::write(&state),
        state,
        card: vec![255; blocks * BLOCK],
        register,
    }
}

/// A plan: an entry for each event.
pub fn plan(names: impl Iterator<Item = Vec<u8>>) -> Vec<u8> {
    names.flat_map(|name| *Entry::from(&name).bytes()).collect()
}

/// The same probe with a full buffer.
pub fn with_full_buffer(mut probe: Probe) -> Probe {
    buffer(&mut probe.state, 128);
    probe.image = image::write(&probe.state);
    probe
}
