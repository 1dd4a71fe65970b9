//! Cards, registers and states that keep the rules but that no history need have made.

use crate::engines::{Call, Probe, second};
use crate::history::name;
use crate::rng::Rng;
use second::image;
use second::state::{Lengths, Partition, Posting, State, Windows};
use std::collections::BTreeSet;

pub const BLOCK: usize = 4_096;
pub const CONTENT: usize = 4_092;

/// The content of a partition of these identifiers' lists, which may be empty where it is to be malformed.
pub fn encode(level: u16, lists: &[Listed]) -> Vec<u8> {
    let postings: Vec<&Posting> = lists.iter().flat_map(|(_, list)| list).collect();
    let start = 32 + 12 * lists.len();
    let total = start + 4 * postings.len();
    let mut words = vec![lists.len(), postings.len(), 32, start, total];
    words.push(level.into());
    words.extend(span(lists).map(usize::from));
    let mut first = 0;
    for (id, list) in lists {
        words.extend([usize::from(*id), list.len(), first]);
        first += list.len();
    }
    words.extend(postings.into_iter().map(|posting| {
        let sign = if posting.count < 0 { 0x8000 } else { 0 };
        usize::from(posting.window) * 0x1_0000 + sign + usize::from(posting.count.unsigned_abs())
    }));
    words
        .into_iter()
        .flat_map(|word| (word as u32).to_le_bytes())
        .collect()
}

/// The lowest and the highest window of lists; those of a malformed partition without postings are ones.
pub fn span(lists: &[Listed]) -> [u16; 2] {
    let windows = || lists.iter().flat_map(|(_, list)| list).map(|it| it.window);
    let [lowest, highest] = [windows().min(), windows().max()];
    [lowest, highest].map(|window| window.unwrap_or(1))
}

/// Writes content and links into these blocks.
pub fn lay(card: &mut [u8], blocks: &[usize], content: &[u8]) {
    for (place, &number) in blocks.iter().enumerate() {
        let block = &mut card[number * BLOCK..][..BLOCK];
        let piece = &content[place * CONTENT..content.len().min((place + 1) * CONTENT)];
        block[..piece.len()].copy_from_slice(piece);
        let link = blocks.get(place + 1).map_or(65_534, |&next| next as u32);
        block[CONTENT..].copy_from_slice(&link.to_le_bytes());
    }
}

/// The numbers that a foreign probe is made of.
#[derive(Clone)]
pub struct Mix {
    pub blocks: usize,
    pub entries: usize,
    /// Identifiers' numbers are among these.
    pub ids: Vec<u16>,
    /// Windows of the first partition run from 1 to this, and those of each other one so many above the one before.
    pub windows: u16,
    pub apart: u16,
    /// One pair in so many has a posting in a partition.
    pub spread: usize,
    /// Sizes of counts.
    pub sizes: Vec<i16>,
    /// The partitions' levels.
    pub levels: Vec<u16>,
    /// One partition in so many has entries without postings, or no entries.
    pub hollow: usize,
    /// Whether every other partition takes back what the one before it holds.
    pub cancels: bool,
}

/// An identifier's list of windows above a number, by falling window.
fn list(mix: &Mix, id: u16, above: u16, rng: &mut Rng) -> Vec<Posting> {
    let mut list = Vec::new();
    for window in (above + 1..=above + mix.windows).rev() {
        if rng.one_in(mix.spread) {
            let size = rng.pick(&mix.sizes);
            let count = if rng.one_in(3) { -size } else { size };
            list.push(Posting { id, window, count });
        }
    }
    list
}

/// An identifier and its list.
pub type Listed = (u16, Vec<Posting>);

/// The lists with every count negated.
fn negated(mut lists: Vec<Listed>) -> Vec<Listed> {
    for posting in lists.iter_mut().flat_map(|(_, list)| list) {
        posting.count = -posting.count;
    }
    lists
}

/// The lists of a partition, of windows above a number.
fn lists(mix: &Mix, above: u16, rng: &mut Rng) -> Vec<Listed> {
    let ids = mix.ids.iter();
    let mut lists: Vec<Listed> = ids.map(|&id| (id, list(mix, id, above, rng))).collect();
    if rng.one_in(mix.hollow) {
        match rng.below(3) {
            0 => lists.clear(),
            _ => {
                let place = rng.below(lists.len());
                lists[place].1.clear();
            }
        }
        return lists;
    }
    lists.retain(|(_, list)| !list.is_empty());
    if lists.is_empty() {
        let (id, window, count) = (mix.ids[0], above + 1, 1);
        lists.push((id, vec![Posting { id, window, count }]));
    }
    lists
}

/// Levels that never rise, no more of each than the list may hold.
pub fn levels(rng: &mut Rng, most: usize) -> Vec<u16> {
    let mut levels = Vec::new();
    for (level, limit) in [(5, 3), (4, 8), (3, 8), (2, 8), (1, 8), (0, 16)] {
        let count = if rng.one_in(4) {
            limit
        } else {
            rng.below(limit + 1)
        };
        if level == 0 || rng.one_in(3) {
            levels.extend(vec![level; count]);
        }
    }
    levels.truncate(most);
    levels
}

/// A mix of few identifiers and windows, or of many.
pub fn mix(rng: &mut Rng) -> Mix {
    let blocks = 4 + rng.below(60);
    let mut ids: Vec<u16> = (0..1 + rng.below(8) as u16).collect();
    let mut windows = 1 + rng.below(12) as u16;
    match rng.below(12) {
        0 => ids.extend([9, 63, 64, 1_022, 1_023]),
        // A number that is none.
        3 => ids.push(1_024),
        // Windows of more than 64 identifiers.
        1 | 4 => {
            ids = (0..64 + rng.below(4) as u16).collect();
            windows = 2;
        }
        // Lists that fill more than a block.
        2 | 5 => windows = 300,
        _ => {}
    }
    let sizes = match rng.below(3) {
        0 => vec![1, 2, 16_383, 16_384, 32_766, 32_767],
        _ => vec![1, 2, 3, 7, 4_000],
    };
    let most = if windows == 300 { blocks / 4 } else { blocks };
    Mix {
        blocks,
        entries: 1 + rng.below(12),
        ids,
        windows,
        apart: rng.pick(&[0, 0, 2, 20]),
        spread: 1 + rng.below(3),
        sizes,
        levels: levels(rng, most),
        hollow: 100,
        cancels: rng.one_in(8),
    }
}

/// A register of the first so many names.
pub fn register(entries: usize, used: usize) -> Vec<u8> {
    let mut register = vec![0; entries * 65];
    for (number, entry) in register.chunks_exact_mut(65).take(used).enumerate() {
        let name = name(number);
        entry[0] = name.len() as u8;
        entry[1..=name.len()].copy_from_slice(&name);
    }
    register
}

/// The windows of a state, with an open one or without.
fn windows(mix: &Mix, rng: &mut Rng) -> Windows {
    let least = mix.windows.max(2);
    let last = rng.pick(&[least, least, least + 1, least - 1, 65_534, 65_535]);
    let (open, events) = match rng.below(4) {
        0 => (0, 0),
        1 => (last, 0),
        _ => (last, rng.pick(&[1, 2, 50, 32_766, 32_767])),
    };
    // N counts closed windows alone.
    let most = if open > 0 { last - 1 } else { last };
    Windows {
        last,
        live: (rng.below(12) as u16).min(most),
        open,
        events,
    }
}

/// Puts identifiers of the open window and buffered postings into a state.
fn fill(state: &mut State, mix: &Mix, rng: &mut Rng) {
    let windows = state.windows;
    if windows.open != 0 {
        let mut ids: Vec<u16> = (0..70).chain([1_000, 1_023]).collect();
        rng.shuffle(&mut ids);
        ids.truncate(rng.pick(&[0, 1, 5, 20, 63, 64]));
        state.listed.used = ids.len() as u16;
        state.listed.ids[..ids.len()].copy_from_slice(&ids);
    }
    let mut buffer: Vec<Posting> = mix
        .ids
        .iter()
        .flat_map(|&id| list(mix, id, 0, rng))
        .collect();
    if rng.one_in(2) {
        buffer.extend((600..728).map(|id| Posting {
            id,
            window: 1,
            count: 1,
        }));
    }
    buffer.retain(|posting| posting.window <= windows.last && posting.id < 1_024);
    for posting in buffer.iter_mut().filter(|p| p.window == windows.open) {
        posting.count = posting.count.saturating_abs().min(windows.events as i16);
    }
    buffer.retain(|posting| posting.count != 0);
    buffer.sort_by_key(|posting| (posting.id, u16::MAX - posting.window));
    buffer.dedup_by_key(|posting| (posting.id, posting.window));
    buffer.truncate(rng.pick(&[0, 3, 20, 127, 128, 128]));
    state.buffer.used = buffer.len() as u16;
    state.buffer.postings[..buffer.len()].copy_from_slice(&buffer);
}

/// A probe with partitions of these levels in blocks at random, as far as the card has room.
pub fn build(mix: &Mix, rng: &mut Rng) -> Probe {
    let mut card = vec![255; mix.blocks * BLOCK];
    let mut free: Vec<usize> = (0..mix.blocks).collect();
    rng.shuffle(&mut free);
    let mut state = State {
        lengths: Lengths {
            card: card.len() as u32,
            register: mix.entries as u32 * 65,
        },
        windows: windows(mix, rng),
        taken: rng.below(mix.blocks) as u16,
        ..State::default()
    };
    fill(&mut state, mix, rng);
    let mut records = state.partitions.records.iter_mut();
    let mut before = None;
    for (place, &level) in (0..).zip(&mix.levels) {
        let lists = match before.take() {
            Some(before) => negated(before),
            None => {
                let lists = lists(mix, mix.apart * place, rng);
                before = mix.cancels.then(|| lists.clone());
                lists
            }
        };
        let content = encode(level, &lists);
        let count = content.len().div_ceil(CONTENT);
        if count > free.len() {
            break;
        }
        let blocks = free.split_off(free.len() - count);
        lay(&mut card, &blocks, &content);
        let [lowest, highest] = span(&lists);
        *records.next().expect("at most 51 levels") = Partition {
            first: blocks[0] as u16,
            level,
            length: content.len() as u32,
            lowest,
            highest,
        };
        state.partitions.used += 1;
    }
    let used = rng.below(mix.entries + 1);
    Probe {
        image: image::write(&state),
        card,
        register: register(mix.entries, used),
    }
}

/// Takes up to so many steps of the second engine, so that a merge may be in progress.
pub fn advance(probe: &mut Probe, steps: usize) {
    for _ in 0..steps {
        if second(probe, &Call::Step, &mut []).is_err() {
            return;
        }
    }
}

/// The blocks that the state names first: of partitions and of the output.
pub fn first_blocks(probe: &Probe) -> BTreeSet<usize> {
    let Some(state) = image::read(&probe.image) else {
        return BTreeSet::new();
    };
    let firsts = state.partitions.records.map(|record| record.first);
    let all = firsts.into_iter().chain([state.merge.first]);
    let blocks = probe.card.len() / BLOCK;
    all.map(usize::from)
        .filter(|&first| first < blocks)
        .collect()
}
