//! The bytes on the card, counted by hand.

use crate::image::{BLOCK, CONTENT, FREE, word};
use crate::twin::Twin;

/// A block that starts with these bytes, is 255 after them and ends a chain.
fn last_block(content: &[u8]) -> Vec<u8> {
    let mut block = FREE.to_vec();
    block[..content.len()].copy_from_slice(content);
    block[CONTENT..].copy_from_slice(&[0xfe, 0xff, 0, 0]);
    block
}

fn block(twin: &Twin, number: usize) -> &[u8] {
    &twin.card[number * BLOCK..][..BLOCK]
}

/// Window 1 has A twice and B once, window 2 has A once.
fn two_windows() -> Twin {
    let mut twin = Twin::new(4, 4);
    twin.open().unwrap();
    for identifier in [b"A", b"B", b"A"] {
        twin.event(identifier).unwrap();
    }
    twin.close().unwrap();
    twin.open().unwrap();
    twin.event(b"A").unwrap();
    twin.close().unwrap();
    twin
}

#[test]
fn a_small_partition() {
    let mut twin = two_windows();
    twin.flush().unwrap();
    #[rustfmt::skip]
    let expected = [
        // Header: identifiers, postings, two offsets, length, level, lowest and highest window.
        2, 0, 0, 0,  3, 0, 0, 0,  32, 0, 0, 0,  56, 0, 0, 0,
        68, 0, 0, 0,  0, 0, 0, 0,  1, 0, 0, 0,  2, 0, 0, 0,
        // Entries: number, zero, postings, first.
        0, 0,  0, 0,  2, 0, 0, 0,  0, 0, 0, 0,
        1, 0,  0, 0,  1, 0, 0, 0,  2, 0, 0, 0,
        // Postings: count, window.
        1, 0,  2, 0,
        2, 0,  1, 0,
        1, 0,  1, 0,
    ];
    assert!(block(&twin, 0) == last_block(&expected));
    assert!(twin.card[BLOCK..].iter().all(|&byte| byte == 255));
    assert_eq!(twin.register[..5], [1, b'A', 0, 0, 0]);
    assert_eq!(twin.register[65..70], [1, b'B', 0, 0, 0]);
    let record = twin.state.partitions.to_list()[0];
    assert_eq!((record.first, record.level, record.length), (0, 0, 68));
    assert_eq!((record.lowest, record.highest), (1, 2));
    assert_eq!(twin.state.taken, 0);
}

#[test]
fn a_partition_of_negative_counts() {
    let mut twin = two_windows();
    twin.flush().unwrap();
    twin.remove(1).unwrap();
    twin.flush().unwrap();
    #[rustfmt::skip]
    let expected = [
        2, 0, 0, 0,  2, 0, 0, 0,  32, 0, 0, 0,  56, 0, 0, 0,
        64, 0, 0, 0,  0, 0, 0, 0,  1, 0, 0, 0,  1, 0, 0, 0,
        0, 0,  0, 0,  1, 0, 0, 0,  0, 0, 0, 0,
        1, 0,  0, 0,  1, 0, 0, 0,  1, 0, 0, 0,
        2, 0x80,  1, 0,
        1, 0x80,  1, 0,
    ];
    assert!(block(&twin, 1) == last_block(&expected));
    assert_eq!(twin.state.taken, 1);
}

/// Eight partitions of 5 pairs each: (identifier 0 to 4, windows 1 to 8), of
/// which the pairs of window 8 take back those of window 7.
fn forty_pairs() -> Twin {
    let mut twin = Twin::new(20, 5);
    for window in 1..=7 {
        twin.open().unwrap();
        for identifier in [b"A", b"B", b"C", b"D", b"E"] {
            for _ in 0..window {
                twin.event(identifier).unwrap();
            }
        }
        twin.close().unwrap();
        twin.flush().unwrap();
    }
    twin.remove(7).unwrap();
    twin.flush().unwrap();
    twin
}

/// Pairs come by identifier, windows 7 to 1 each; those of window 7 come to 0.
#[test]
fn the_posting_space_after_each_step() {
    let mut twin = forty_pairs();
    let pairs: Vec<u32> = (0..5).flat_map(|_| [7, 6, 5, 4, 3, 2, 1]).collect();
    let length = 32 + 12 * 5 + 4 * 30;
    for step in 1..=2 {
        twin.step().unwrap();
        let (job, first) = (twin.state.merge, 8);
        assert_eq!((job.first, job.length, job.steps), (first, length, step));
        let taken = pairs[..16 * step as usize].iter();
        let sums = taken.filter(|&&window| window != 7);
        let mut content = vec![255; 32 + 12 * 5];
        content.extend(sums.flat_map(|&window| (window << 16 | window).to_le_bytes()));
        assert!(block(&twin, 8) == last_block(&content));
        assert_eq!(twin.state.partitions.used, 8);
    }
    twin.step().unwrap();
    assert_eq!(twin.state.merge, Default::default());
    let record = twin.state.partitions.to_list()[0];
    assert_eq!((record.first, record.level, record.length), (8, 1, length));
    // Window 7 is gone from the result.
    assert_eq!((record.lowest, record.highest), (1, 6));
    assert_eq!(twin.state.partitions.used, 1);
    let header: Vec<u32> = (0..8).map(|f| word(block(&twin, 8), 4 * f)).collect();
    assert_eq!(header, [5, 30, 32, 92, length, 1, 1, 6]);
    assert!(twin.card[..8 * BLOCK].iter().all(|&byte| byte == 255));
    assert_eq!(twin.step(), Err(13));
}

/// Blocks are taken round the end, and the one last taken comes last.
#[test]
fn blocks_are_taken_upward_and_round() {
    let mut twin = forty_pairs();
    while twin.step().is_ok() {}
    let mut firsts = Vec::new();
    for _ in 0..7 {
        twin.open().unwrap();
        twin.event(b"A").unwrap();
        twin.close().unwrap();
        twin.flush().unwrap();
        firsts.push(twin.state.taken);
    }
    assert_eq!(firsts, [9, 10, 11, 12, 13, 14, 15]);
    twin.open().unwrap();
    twin.event(b"A").unwrap();
    twin.flush().unwrap();
    while twin.step().is_ok() {}
    assert_eq!(twin.state.taken, 17);
    for expected in [18, 19, 0, 1, 2, 3] {
        twin.event(b"A").unwrap();
        twin.flush().unwrap();
        assert_eq!(twin.state.taken, expected);
    }
}
