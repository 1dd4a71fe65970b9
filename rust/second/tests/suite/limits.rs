//! Histories that run into each limit.

use crate::history::name;
use crate::twin::Twin;

#[test]
fn a_window_has_at_most_32767_events() {
    let mut twin = Twin::new(8, 2);
    twin.open().unwrap();
    for _ in 0..32_767 {
        twin.event(b"A").unwrap();
    }
    assert_eq!(twin.event(b"A"), Err(6));
    assert_eq!(twin.event(b"B"), Err(6));
    twin.close().unwrap();
    twin.open().unwrap();
    twin.event(b"B").unwrap();
    twin.close().unwrap();
    // The largest count weighs 240, one window of two 16.
    assert_eq!(twin.query(&[b"A"], 1), Ok((vec![(1, 240 * 16)], 1)));
    assert_eq!(twin.mean(b"A"), Ok((32_767, 0, 1)));
    twin.flush().unwrap();
    assert_eq!(twin.query(&[b"A"], 1), Ok((vec![(1, 240 * 16)], 1)));
    twin.remove(1).unwrap();
    twin.flush().unwrap();
    assert_eq!(twin.query(&[b"A"], 1), Ok((vec![], 2)));
    assert_eq!(twin.mean(b"A"), Err(15));
    twin.tally.print("The most events of a window:");
}

/// The same count in two partitions: the sum reaches the limit and no more.
#[test]
fn a_largest_count_may_be_split() {
    let mut twin = Twin::new(8, 2);
    twin.open().unwrap();
    for event in 0..32_767 {
        if event % 16_000 == 15_999 {
            twin.flush().unwrap();
        }
        twin.event(b"A").unwrap();
    }
    assert_eq!(twin.event(b"A"), Err(6));
    assert_eq!(twin.query(&[b"A"], 1), Ok((vec![], 3)));
    twin.close().unwrap();
    assert_eq!(twin.query(&[b"A"], 1), Ok((vec![(1, 0)], 3)));
    twin.remove(1).unwrap();
    assert_eq!(twin.query(&[b"A"], 1), Ok((vec![], 3)));
}

/// Every number is given once; the last one comes back while it has no events.
#[test]
fn all_window_numbers_can_be_used() {
    let mut twin = Twin::new(16, 3);
    for window in 1..=65_534 {
        assert_eq!(twin.open(), Ok(window));
        twin.event(&name(window as usize % 3)).unwrap();
        twin.close().unwrap();
        if window % 1000 != 0 {
            twin.remove(window).unwrap();
        }
    }
    for _ in 0..2 {
        assert_eq!(twin.open(), Ok(65_535));
        twin.close().unwrap();
    }
    twin.open().unwrap();
    assert_eq!(twin.open(), Err(5));
    twin.event(b"\0\x01").unwrap_err();
    twin.event(&name(0)).unwrap();
    twin.close().unwrap();
    assert_eq!(twin.open(), Err(6));
    assert_eq!(twin.remove(65_536), Err(7));
    twin.remove(65_535).unwrap();
    assert_eq!(twin.open(), Err(6));
    assert_eq!(twin.ledger.live.len(), 65);
    twin.query(&[&name(0), &name(1), &name(2)], 32).unwrap();
    // Every thousandth window is live, with one count.
    assert_eq!(twin.mean(&name(0)), Ok((1, 0, 21)));
    assert_eq!(twin.mean(&name(1)), Ok((1, 0, 22)));
    twin.tally.print("All window numbers:");
}

#[test]
fn a_window_has_at_most_64_identifiers() {
    let mut twin = Twin::new(8, 65);
    twin.open().unwrap();
    for number in 0..64 {
        twin.event(&name(number)).unwrap();
    }
    assert_eq!(twin.event(&name(64)), Err(9));
    twin.event(&name(63)).unwrap();
    twin.close().unwrap();
    twin.open().unwrap();
    twin.event(&name(64)).unwrap();
    // The register is full now, which comes before the window being full.
    for number in 0..63 {
        twin.event(&name(number)).unwrap();
    }
    assert_eq!(twin.event(&name(65)), Err(8));
    assert_eq!(twin.event(&name(63)), Err(9));
    twin.remove(1).unwrap();
}

#[test]
fn a_register_has_at_most_1024_entries() {
    let mut twin = Twin::new(64, 1024);
    for number in 0..1024 {
        if number % 64 == 0 {
            twin.open().unwrap();
        }
        twin.event(&name(number)).unwrap();
        if number % 64 == 63 {
            twin.close().unwrap();
        }
    }
    twin.open().unwrap();
    assert_eq!(twin.event(&name(1024)), Err(8));
    twin.event(&name(1023)).unwrap();
    assert_eq!(twin.state.listed.to_list(), [1023]);
}

/// Two windows of 64 identifiers fill the buffer.
fn full_buffer() -> Twin {
    let mut twin = Twin::new(64, 64);
    for _ in 0..2 {
        twin.open().unwrap();
        for number in 0..64 {
            twin.event(&name(number)).unwrap();
        }
        if twin.ledger.last == 1 {
            twin.close().unwrap();
        }
    }
    assert_eq!(
        (twin.state.buffer.used, twin.state.partitions.used),
        (128, 0)
    );
    twin
}

#[test]
fn an_event_flushes_only_for_a_new_pair() {
    let mut twin = full_buffer();
    twin.event(&name(5)).unwrap();
    assert_eq!(
        (twin.state.buffer.used, twin.state.partitions.used),
        (128, 0)
    );
    twin.close().unwrap();
    twin.open().unwrap();
    twin.event(&name(5)).unwrap();
    assert_eq!((twin.state.buffer.used, twin.state.partitions.used), (1, 1));
}

#[test]
fn a_removal_flushes_only_beyond_128() {
    let mut twin = full_buffer();
    twin.close().unwrap();
    // The pairs are in the buffer already, but count all the same.
    twin.remove(1).unwrap();
    assert_eq!(
        (twin.state.buffer.used, twin.state.partitions.used),
        (64, 1)
    );
    twin.remove(2).unwrap();
    assert_eq!(
        (twin.state.buffer.used, twin.state.partitions.used),
        (128, 1)
    );
    assert_eq!(twin.remove(2), Err(7));
    assert!(twin.ledger.live.is_empty());
}

#[test]
fn level_zero_has_at_most_16_partitions() {
    let mut twin = Twin::new(64, 1);
    twin.open().unwrap();
    for _ in 0..16 {
        twin.event(b"A").unwrap();
        twin.flush().unwrap();
    }
    assert_eq!(twin.flush(), Ok(()));
    twin.event(b"A").unwrap();
    assert_eq!(twin.flush(), Err(10));
    twin.step().unwrap();
    twin.flush().unwrap();
    assert_eq!(twin.state.partitions.used, 10);
}

/// On an odd number of blocks, half of them rounded down may be finished.
#[test]
fn half_of_the_card_is_kept_for_merges() {
    for (blocks, flushes) in [(4, 2), (5, 2), (6, 3), (7, 3), (8, 4)] {
        let mut twin = Twin::new(blocks, 1);
        twin.open().unwrap();
        for _ in 0..flushes {
            twin.event(b"A").unwrap();
            twin.flush().unwrap();
        }
        twin.event(b"A").unwrap();
        assert_eq!(twin.flush(), Err(11), "{blocks}");
    }
}

#[test]
fn start_refuses_lengths_beyond_the_limits() {
    let cases = [
        (0, 65),
        (3 * 4096, 65),
        (4 * 4096 + 1, 65),
        (4097 * 4096, 65),
        (4 * 4096, 0),
        (4 * 4096, 64),
        (4 * 4096, 66),
        (4 * 4096, 1025 * 65),
    ];
    for (card, register) in cases {
        let (mut card, mut register) = (vec![7; card], vec![7; register]);
        let (state, result) = second::engine::start(&mut card, &mut register);
        assert_eq!(result.map_err(|refusal| refusal.number()), Err(2));
        assert_eq!(state, second::state::State::default());
        assert!(card.iter().chain(&register).all(|&byte| byte == 7));
    }
}
