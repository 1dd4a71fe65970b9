//! What a card holds where every merge is taken as it falls due: the table of docs/FORMAT.md, as far as it runs in a moment.

use crate::twin::Twin;

/// Takes merge steps until none is due.
fn settle(twin: &mut Twin) {
    loop {
        match twin.step() {
            Ok(()) => {}
            Err(13) => return,
            Err(other) => panic!("a step is refused with {other}"),
        }
    }
}

/// Flushes until one is refused with 11, with all merges between, and tells how many were done.
fn flushes(blocks: usize, entries: usize, mut fill: impl FnMut(&mut Twin)) -> usize {
    let mut twin = Twin::new(blocks, entries);
    let mut done = 0;
    loop {
        fill(&mut twin);
        match twin.flush() {
            Ok(()) => done += 1,
            Err(11) => break,
            Err(other) => panic!("a flush is refused with {other}"),
        }
        settle(&mut twin);
    }
    // Nothing is due, so that no step makes room: it is so for good.
    assert_eq!(twin.step(), Err(13));
    assert_eq!(twin.flush(), Err(11));
    done
}

/// The same pair again and again: every partition is one block, so that only their number counts.
#[test]
fn small_partitions_fill_a_card_by_their_number() {
    for (blocks, expected) in [(4, 2), (8, 4), (16, 15), (32, 191), (48, 2_047)] {
        let done = flushes(blocks, 1, |twin| {
            // One window stays open throughout.
            let opened = twin.open();
            assert!(matches!(opened, Ok(1) | Err(5)));
            twin.event(b"A").unwrap();
        });
        assert_eq!(done, expected, "{blocks} blocks");
    }
}

/// 128 new pairs a flush, two windows of 64 identifiers: partitions grow as they are merged.
#[test]
fn full_partitions_fill_a_card_by_their_length() {
    for (blocks, expected) in [(4, 2), (8, 4), (16, 14), (32, 46)] {
        let done = flushes(blocks, 64, |twin| {
            for _ in 0..2 {
                twin.open().unwrap();
                for identifier in 0..64u8 {
                    twin.event(&[identifier]).unwrap();
                }
                twin.close().unwrap();
            }
        });
        assert_eq!(done, expected, "{blocks} blocks");
    }
}
