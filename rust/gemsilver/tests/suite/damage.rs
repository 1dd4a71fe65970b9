//! Damage to images, cards and registers.

use crate::engines::{Call, Probe};
use crate::history::{any_name, any_query};
use crate::parts::{BLOCK, CONTENT, first_blocks};
use crate::rng::Rng;
use crate::words::{at, put, word};
use second::image;

/// Numbers at the limits.
const LIMITS: [u32; 18] = [
    0,
    1,
    2,
    5,
    6,
    8,
    16,
    17,
    64,
    128,
    1_023,
    4_092,
    32_767,
    32_768,
    65_534,
    65_535,
    65_536,
    u32::MAX,
];

/// Another number: near the old one, at a limit, or any.
fn changed(old: u32, rng: &mut Rng) -> u32 {
    match rng.below(8) {
        0..3 => {
            let by = rng.pick(&[1, 2, 3, 4, 12, 16, 4_092, 4_096, 32_768, 65_536]);
            if rng.one_in(2) {
                old.wrapping_add(by)
            } else {
                old.wrapping_sub(by)
            }
        }
        3..5 => rng.pick(&LIMITS),
        5 => rng.below(50) as u32,
        6 => rng.below(65_536) as u32,
        _ => old ^ (1 << rng.below(32)),
    }
}

/// A word's place in an image, used ones rather than others.
fn image_place(image: &[u8], rng: &mut Rng) -> usize {
    let used = |place, most: usize| (word(image, place) as usize).min(most - 1) + 1;
    match rng.below(8) {
        0 | 1 => rng.below(7),
        2 => at::LISTED + rng.below(1 + used(at::LISTED, 64)),
        3 => at::BUFFER + rng.below(1 + 3 * used(at::BUFFER, 128)),
        4 | 5 => at::PARTITIONS + rng.below(1 + at::RECORD * used(at::PARTITIONS, 51)),
        6 => at::TAKEN + rng.below(4),
        _ => rng.below(716),
    }
}

/// Changes a word of the image, or swaps, doubles or drops partitions' records.
fn damage_image(image: &mut [u8], rng: &mut Rng) {
    let used = word(image, at::PARTITIONS) as usize;
    let record = |number: usize| 4 * at::record(number);
    let bytes = 4 * at::RECORD;
    if rng.one_in(8) && (1..=51).contains(&used) {
        let (from, to) = (record(rng.below(used)), record(rng.below(used)));
        match rng.below(3) {
            0 => (0..bytes).for_each(|byte| image.swap(from + byte, to + byte)),
            1 => image.copy_within(from..from + bytes, to),
            _ => {
                image[record(used - 1)..][..bytes].fill(0);
                put(image, at::PARTITIONS, used as u32 - 1);
            }
        }
        return;
    }
    let place = image_place(image, rng);
    let old = word(image, place);
    put(image, place, changed(old, rng));
}

/// A word's place in a used block: in the header, the entries, among the postings, or the link.
fn card_place(block: &[u8], rng: &mut Rng) -> usize {
    let lists = (word(block, 0) as usize).clamp(1, 80);
    match rng.below(6) {
        0 => rng.below(8),
        1 | 2 => 8 + rng.below(3 * lists),
        3 | 4 => (8 + 3 * lists + rng.below(60)).min(CONTENT / 4 - 1),
        _ if rng.one_in(3) => rng.below(BLOCK / 4),
        _ => CONTENT / 4,
    }
}

/// Changes a posting's size, sign or window.
fn changed_posting(old: u32, rng: &mut Rng) -> u32 {
    match rng.below(6) {
        0 => old & 0xffff_8000,
        1 => old ^ 0x8000,
        2 => old | 0x7fff,
        3 => old & 0xffff,
        4 => old.wrapping_add(0x1_0000),
        _ => old.wrapping_sub(0x1_0000),
    }
}

/// Makes something of every free block, or of all but one or two.
pub fn spoil(card: &mut [u8], rng: &mut Rng) {
    let mut left = rng.below(3);
    for block in card.chunks_exact_mut(BLOCK) {
        if block.iter().all(|&byte| byte == 255) {
            if left > 0 && rng.one_in(3) {
                left -= 1;
            } else {
                block[rng.below(BLOCK)] = rng.below(255) as u8;
            }
        }
    }
}

/// Changes a word of a used block, or what is in the free ones.
fn damage_card(probe: &mut Probe, rng: &mut Rng) {
    let firsts: Vec<usize> = first_blocks(probe).into_iter().collect();
    let blocks = probe.card.len() / BLOCK;
    if blocks == 0 || rng.one_in(8) {
        return spoil(&mut probe.card, rng);
    }
    let number = if firsts.is_empty() || rng.one_in(10) {
        rng.below(blocks)
    } else {
        rng.pick(&firsts)
    };
    let block = &mut probe.card[number * BLOCK..][..BLOCK];
    let place = card_place(block, rng);
    let old = word(block, place);
    let new = match place {
        _ if place == CONTENT / 4 && rng.one_in(2) => rng.below(blocks + 1) as u32,
        8.. if rng.one_in(2) => changed_posting(old, rng),
        _ => changed(old, rng),
    };
    put(block, place, new);
}

/// Changes the lowest or highest window of a partition, in its record, in its header or in both alike.
pub fn damage_span(probe: &mut Probe, rng: &mut Rng) {
    let used = (word(&probe.image, at::PARTITIONS) as usize).min(51);
    if used == 0 {
        return;
    }
    let record = at::record(rng.below(used));
    let field = rng.pick(&[at::LOWEST, at::HIGHEST]);
    let old = word(&probe.image, record + field);
    let new = match rng.below(4) {
        0 => old.saturating_sub(1),
        1 => old + 1,
        2 => rng.pick(&[0, 1, 2, 300, 65_535]),
        _ => word(&probe.image, record + at::LOWEST + at::HIGHEST - field),
    };
    let (in_record, in_header) =
        rng.pick(&[(true, true), (true, true), (true, false), (false, true)]);
    if in_record {
        put(&mut probe.image, record + field, new);
    }
    let block = word(&probe.image, record) as usize;
    if in_header && block < probe.card.len() / BLOCK {
        // The header's last two words, as the record's.
        put(
            &mut probe.card[block * BLOCK..],
            6 + field - at::LOWEST,
            new,
        );
    }
}

/// Copies or clears an entry, or changes a byte.
fn damage_register(register: &mut [u8], rng: &mut Rng) {
    let entries = register.len() / 65;
    if entries == 0 {
        return;
    }
    let (from, to) = (65 * rng.below(entries), 65 * rng.below(entries));
    match rng.below(4) {
        0 => register.copy_within(from..from + 65, to),
        1 => register[to..][..65].fill(0),
        2 => register[to] = rng.pick(&[0, 1, 2, 63, 64, 65, 255]),
        _ => register[rng.below(65 * entries)] = rng.next() as u8,
    }
}

/// Another length, with bytes that change nothing else.
fn other_length(bytes: &mut Vec<u8>, unit: usize, fill: u8, rng: &mut Rng) {
    let length = match rng.below(6) {
        0 => 0,
        1 => bytes.len() + 1,
        2 => bytes.len().saturating_sub(1),
        3 => bytes.len() + unit,
        4 => bytes.len().saturating_sub(unit),
        _ => unit,
    };
    bytes.resize(length, fill);
}

/// Changes a word of the merge in progress, of its output or of a partition, or links the oldest partition to the output.
pub fn damage_merge(probe: &mut Probe, rng: &mut Rng) {
    let output = word(&probe.image, at::MERGE) as usize;
    let link = |block: usize| block * BLOCK / 4 + CONTENT / 4;
    if rng.one_in(3) {
        let place = at::MERGE + rng.below(3);
        let old = word(&probe.image, place);
        return put(&mut probe.image, place, changed(old, rng));
    }
    if output >= probe.card.len() / BLOCK || rng.one_in(4) {
        return damage_card(probe, rng);
    }
    let next = word(&probe.card, link(output)) as usize;
    if rng.one_in(4) {
        let oldest = word(&probe.image, at::PARTITIONS + 1) as usize;
        let shared = rng.pick(&[output, next, next]);
        return put(&mut probe.card, link(oldest), shared as u32);
    }
    let is_block = next < probe.card.len() / BLOCK;
    let number = if is_block && rng.one_in(2) {
        next
    } else {
        output
    };
    let block = &mut probe.card[number * BLOCK..][..BLOCK];
    let place = rng.below(BLOCK / 4);
    let old = word(block, place);
    put(block, place, changed(old, rng));
}

/// Changes one thing.
pub fn damage(probe: &mut Probe, rng: &mut Rng) {
    match rng.below(40) {
        0..10 if probe.image.len() == image::LENGTH => damage_image(&mut probe.image, rng),
        10..14 if probe.image.len() == image::LENGTH => damage_span(probe, rng),
        10..33 => damage_card(probe, rng),
        33..37 => damage_register(&mut probe.register, rng),
        37 => other_length(&mut probe.card, BLOCK, 255, rng),
        38 => other_length(&mut probe.register, 65, 0, rng),
        _ => other_length(&mut probe.image, 4, 0, rng),
    }
}

/// Any call. Windows to be removed are up to a little more than `last`, and rather near it.
pub fn any_call(rng: &mut Rng, names: usize, last: usize) -> Call {
    match rng.below(20) {
        0 | 1 => Call::Open,
        2 => Call::Close,
        3..6 => Call::Event(any_name(rng, names)),
        6..8 => Call::Flush,
        8..11 => Call::Remove(match rng.below(8) {
            0 => rng.pick(&[0, 65_535, 65_536, u32::MAX]),
            1..4 => rng.below(last + 3) as u32,
            _ => (last + 1).saturating_sub(rng.below(12)) as u32,
        }),
        11..15 => Call::Step,
        _ => any_query(rng, names, last as u32),
    }
}
