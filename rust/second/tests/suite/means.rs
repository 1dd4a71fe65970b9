//! The mean count of an identifier over the closed windows that have it.

use crate::build::build;
use crate::calls::{Call, make, mean, mean_of, outcome};
use crate::image::BLOCK;
use crate::malformed::{card_of, part};
use crate::rng::Rng;
use crate::twin::Twin;
use second::commands::Probe;
use second::ledger::Ledger;
use second::refusal::Refusal;
use second::state::Posting;

const LUCKY: &[u8] = b"LUCKY";

/// Counts an identifier so many times in the open window.
fn count(twin: &mut Twin, identifier: &[u8], times: usize) {
    for _ in 0..times {
        twin.event(identifier).unwrap();
    }
}

/// A closed window with these counts.
fn window(twin: &mut Twin, counts: &[(&[u8], usize)]) {
    twin.open().unwrap();
    for &(identifier, times) in counts {
        count(twin, identifier, times);
    }
    twin.close().unwrap();
}

/// Closed windows with LUCKY 3, DOOR 1, LUCKY 1 and LUCKY 4.
fn four_closed() -> Twin {
    let mut twin = Twin::new(64, 40);
    window(&mut twin, &[(LUCKY, 3), (b"TILT", 1)]);
    window(&mut twin, &[(b"DOOR", 1)]);
    window(&mut twin, &[(LUCKY, 1)]);
    window(&mut twin, &[(LUCKY, 4), (b"DOOR", 2)]);
    twin
}

#[test]
fn of_one_window_it_is_the_count() {
    let mut twin = four_closed();
    assert_eq!(twin.mean(b"TILT"), Ok((1, 0, 1)));
    let mut twin = Twin::new(4, 1);
    window(&mut twin, &[(LUCKY, 7)]);
    assert_eq!(twin.mean(LUCKY), Ok((7, 0, 1)));
}

#[test]
fn of_several_windows_something_may_be_left_over() {
    let mut twin = four_closed();
    // 8 in three windows, 3 in two.
    assert_eq!(twin.mean(LUCKY), Ok((2, 2, 3)));
    assert_eq!(twin.mean(b"DOOR"), Ok((1, 1, 2)));
    twin.flush().unwrap();
    assert_eq!(twin.mean(LUCKY), Ok((2, 2, 3)));
    assert_eq!(twin.mean(b"DOOR"), Ok((1, 1, 2)));
}

/// A window in partitions and buffer counts one time, with the sum of its counts.
#[test]
fn a_split_window_counts_once() {
    let mut twin = four_closed();
    twin.open().unwrap();
    for _ in 0..3 {
        count(&mut twin, LUCKY, 2);
        twin.flush().unwrap();
    }
    count(&mut twin, LUCKY, 1);
    twin.close().unwrap();
    // 15 in four windows.
    assert_eq!(twin.mean(LUCKY), Ok((3, 3, 4)));
}

#[test]
fn a_removed_window_counts_no_more() {
    for is_flushed in [false, true] {
        let mut twin = four_closed();
        if is_flushed {
            twin.flush().unwrap();
        }
        twin.remove(4).unwrap();
        assert_eq!(twin.mean(LUCKY), Ok((2, 0, 2)));
        assert_eq!(twin.mean(b"DOOR"), Ok((1, 0, 1)));
        twin.remove(1).unwrap();
        assert_eq!(twin.mean(LUCKY), Ok((1, 0, 1)));
        // Window 1 was the only one.
        assert_eq!(twin.mean(b"TILT"), Err(15));
        twin.flush().unwrap();
        assert_eq!(twin.mean(LUCKY), Ok((1, 0, 1)));
        assert_eq!(twin.mean(b"TILT"), Err(15));
    }
}

/// Closes the open window 5 between two means, with so many of LUCKY and one of BELL in it.
fn close_between_means(twin: &mut Twin, lucky: u32) {
    assert_eq!(twin.mean(LUCKY), Ok((2, 2, 3)));
    assert_eq!(twin.mean(b"BELL"), Err(15));
    twin.close().unwrap();
    let sum = 8 + lucky;
    assert_eq!(twin.mean(LUCKY), Ok((sum / 4, sum % 4, 4)));
    assert_eq!(twin.mean(b"BELL"), Ok((1, 0, 1)));
}

#[test]
fn the_open_window_counts_from_its_close_in_the_buffer() {
    let mut twin = four_closed();
    twin.open().unwrap();
    count(&mut twin, LUCKY, 5);
    count(&mut twin, b"BELL", 1);
    close_between_means(&mut twin, 5);
}

#[test]
fn the_open_window_counts_from_its_close_in_partitions() {
    let mut twin = four_closed();
    twin.open().unwrap();
    count(&mut twin, LUCKY, 5);
    count(&mut twin, b"BELL", 1);
    twin.flush().unwrap();
    close_between_means(&mut twin, 5);
    // In two partitions and the buffer.
    let mut twin = four_closed();
    twin.flush().unwrap();
    twin.open().unwrap();
    count(&mut twin, LUCKY, 3);
    twin.flush().unwrap();
    count(&mut twin, LUCKY, 2);
    count(&mut twin, b"BELL", 1);
    twin.flush().unwrap();
    count(&mut twin, LUCKY, 1);
    close_between_means(&mut twin, 6);
}

/// The open window's counts in eight partitions, half merged and merged into one.
#[test]
fn the_open_window_counts_from_its_close_in_a_merged_partition() {
    let mut twin = four_closed();
    twin.open().unwrap();
    count(&mut twin, b"BELL", 1);
    for flush in 0..8u8 {
        // Two pairs more each time, so that the merge takes several steps.
        count(&mut twin, LUCKY, 1);
        count(&mut twin, &[flush], 1);
        count(&mut twin, &[flush, flush], 1);
        twin.flush().unwrap();
        assert_eq!(twin.mean(LUCKY), Ok((2, 2, 3)));
    }
    twin.step().unwrap();
    assert_eq!(twin.state.merge.steps, 1);
    assert_eq!(twin.mean(LUCKY), Ok((2, 2, 3)));
    while twin.step().is_ok() {}
    assert_eq!(twin.state.partitions.used, 1);
    assert_eq!(twin.state.partitions.records[0].level, 1);
    close_between_means(&mut twin, 8);
}

#[test]
fn an_identifier_of_no_closed_window_has_no_mean() {
    // On a fresh card.
    let mut twin = Twin::new(4, 4);
    assert_eq!(twin.mean(LUCKY), Err(15));
    // Never counted, and counted in the open window alone.
    twin.open().unwrap();
    count(&mut twin, LUCKY, 2);
    assert_eq!(twin.mean(LUCKY), Err(15));
    assert_eq!(twin.mean(b"TILT"), Err(15));
    // With a count in an older window that is removed.
    twin.close().unwrap();
    assert_eq!(twin.mean(LUCKY), Ok((2, 0, 1)));
    twin.open().unwrap();
    count(&mut twin, LUCKY, 1);
    twin.remove(1).unwrap();
    assert_eq!(twin.mean(LUCKY), Err(15));
    assert_eq!(twin.state.windows.live, 0);
}

#[test]
fn the_identifier_is_judged_before_its_counts() {
    let mut twin = four_closed();
    assert_eq!(twin.mean(b""), Err(4));
    assert_eq!(twin.mean(&[b'X'; 65]), Err(4));
    assert_eq!(twin.mean(&[b'X'; 64]), Err(15));
    window(&mut twin, &[(&[b'X'; 64], 2)]);
    assert_eq!(twin.mean(&[b'X'; 64]), Ok((2, 0, 1)));
    assert_eq!(twin.mean(&[b'X'; 63]), Err(15));
}

/// Quotient times windows and the remainder are the sum.
#[test]
fn nothing_of_the_sum_is_lost() {
    let mut rng = Rng(15);
    let mut remainders = 0;
    for _ in 0..40 {
        let mut twin = Twin::new(16, 2);
        let counts: Vec<u32> = (0..1 + rng.below(9))
            .map(|_| 1 + rng.below(12) as u32)
            .collect();
        for &times in &counts {
            window(&mut twin, &[(LUCKY, times as usize)]);
        }
        let (quotient, remainder, windows) = twin.mean(LUCKY).unwrap();
        assert_eq!(windows as usize, counts.len());
        assert!(remainder < windows);
        assert_eq!(quotient * windows + remainder, counts.iter().sum());
        remainders += usize::from(remainder > 0);
    }
    assert!(remainders >= 10, "{remainders} left something over");
}

/// Quotient, remainder and windows on a card that no history made.
fn told(probe: &Probe, name: &[u8]) -> Result<(u16, u16, u16), u8> {
    mean_of(probe, name)
        .map(|mean| (mean.quotient, mean.remainder, mean.windows))
        .map_err(Refusal::number)
}

/// Buffers a posting after the open window's one, which is of A.
fn buffer(probe: &mut Probe, posting: Posting) {
    probe.state.buffer.postings[1] = posting;
    probe.state.buffer.used = 2;
}

/// A sum below 0 takes nothing away, and its window is none of the identifier's.
#[test]
fn sums_below_0_add_nothing() {
    let mut probe = card_of(vec![
        part(0, vec![(1, 9, -3), (1, 5, 3), (1, 4, 6), (2, 9, 1)]),
        part(0, vec![(1, 5, 2), (1, 4, -7), (1, 3, 2), (3, 7, -1)]),
    ]);
    // 5 and 2 in windows 5 and 3.
    assert_eq!(told(&probe, b"B"), Ok((3, 1, 2)));
    assert_eq!(told(&probe, b"C"), Ok((1, 0, 1)));
    assert_eq!(told(&probe, b"D"), Err(15));
    // The buffer brings window 9 to 1.
    let posting = |window, count| Posting {
        id: 1,
        window,
        count,
    };
    buffer(&mut probe, posting(9, 4));
    assert_eq!(told(&probe, b"B"), Ok((2, 2, 3)));
    // It takes window 5 to 0 and below.
    for count in [-5, -6] {
        buffer(&mut probe, posting(5, count));
        assert_eq!(told(&probe, b"B"), Ok((2, 0, 1)));
    }
}

/// Every window but the open one is closed, those above it too.
#[test]
fn windows_above_the_last_number_count() {
    let mut probe = card_of(vec![
        part(0, vec![(0, 2001, 1), (0, 2000, 5)]),
        part(0, vec![(0, 65_535, 3), (0, 2000, 5), (0, 1999, 7)]),
    ]);
    assert_eq!(told(&probe, b"A"), Ok((3, 2, 3)));
    // The open one has 11 with what is buffered.
    make(&mut probe, &Call::Close).unwrap();
    assert_eq!(told(&probe, b"A"), Ok((5, 2, 4)));
}

/// N says how many windows are live, and no mean goes by it.
#[test]
fn windows_are_counted_on_the_card() {
    let mut probe = card_of(vec![part(0, vec![(1, 9, 4), (1, 5, 3), (1, 3, 3)])]);
    for live in [0, 2, 1500] {
        probe.state.windows.live = live;
        assert_eq!(told(&probe, b"B"), Ok((3, 1, 3)));
    }
}

#[test]
fn the_largest_counts_have_a_mean() {
    let list = |counts: [i64; 3]| {
        let windows = [9, 5, 3].into_iter().zip(counts);
        part(
            0,
            windows.map(|(window, count)| (1, window, count)).collect(),
        )
    };
    let probe = card_of(vec![list([32_767; 3])]);
    assert_eq!(told(&probe, b"B"), Ok((32_767, 0, 3)));
    let probe = card_of(vec![list([32_767, 1, 32_766]), list([-1, 32_766, 1])]);
    assert_eq!(told(&probe, b"B"), Ok((32_766, 2, 3)));
}

/// The largest count in every window there can be, all of them closed.
#[test]
fn the_largest_sum_has_a_mean() {
    for last in [32_767, 32_766] {
        let counts = |window| if window == 65_535 { last } else { 32_767 };
        let mut ledger = Ledger::new(160, 1);
        ledger.known = vec![LUCKY.to_vec()];
        ledger.last = 65_535;
        for window in 1..=ledger.last {
            let count = [(LUCKY.to_vec(), counts(window))];
            ledger.live.insert(window, count.into());
        }
        let windows = (1..=ledger.last).rev();
        let entries = windows.map(|window| (0, window, counts(window).into()));
        ledger.account.parts = vec![part(5, entries.collect())];
        let probe = build(&ledger);
        let mut twin = Twin::of(probe.state, probe.card, probe.register, ledger);
        // One less in one window takes one from the quotient and leaves the most over.
        let expected = match last {
            32_767 => (32_767, 0, 65_535),
            _ => (32_766, 65_534, 65_535),
        };
        assert_eq!(twin.mean(LUCKY), Ok(expected));
    }
}

/// Lists of A and B, and A once more.
///
/// Block 0: entries at 32, 44; lists at 56, 64.
fn lists() -> Probe {
    card_of(vec![
        part(0, vec![(0, 9, 5), (0, 5, 4), (1, 9, 1), (1, 3, 1)]),
        part(0, vec![(0, 9, -3)]),
    ])
}

/// The card with another word at an offset of block 0.
fn changed(offset: usize, value: u32) -> Probe {
    let mut probe = lists();
    probe.card[offset..][..4].copy_from_slice(&value.to_le_bytes());
    probe
}

/// A mean reads what a query over all windows reads: every list, of every identifier.
#[test]
fn lists_of_every_identifier_count() {
    assert_eq!(told(&lists(), b"A"), Ok((3, 0, 2)));
    assert_eq!(told(&lists(), b"B"), Ok((1, 0, 2)));
    let cases = [
        changed(56, 0x0005_0005), // of A, the window of the next one
        changed(56, 0x0009_0000), // no count
        changed(56, 0x0000_0005), // window 0
        changed(68, 0x0003_0000), // of B, no count
        changed(68, 0x0002_0001), // a window below the lowest of the record
        changed(56, 0x000a_0005), // one above the highest
    ];
    for (place, probe) in cases.iter().enumerate() {
        for name in [&b"A"[..], b"B", b"C", b"X", b""] {
            assert_eq!(told(probe, name), Err(3), "{place}: {name:?}");
        }
    }
}

/// Header, entries, chains and register count for every identifier, also for one
/// that the register has not and for one that is none.
#[test]
fn what_is_read_comes_before_the_identifier() {
    let register = |place: usize, byte: u8| {
        let mut probe = lists();
        probe.register[place] = byte;
        probe
    };
    let cases = [
        changed(0, 3),              // another number of identifiers
        changed(24, 1),             // another lowest window
        changed(28, 8),             // another highest window
        changed(44, 0),             // entries that do not ascend
        changed(36, 1),             // lists that do not follow each other
        changed(BLOCK - 4, 0),      // a chain that does not end
        register(0, 0),             // a gap
        register(2, 1),             // a byte past the identifier
        register(65 + 1, b'A'),     // one identifier twice
        register(4 * 65 + 64, 255), // an unused entry that is not zero
    ];
    for (place, probe) in cases.iter().enumerate() {
        for name in [&b"A"[..], b"B", b"X", b"", &[0; 65]] {
            assert_eq!(told(probe, name), Err(3), "{place}: {name:?}");
        }
    }
}

/// Sums of the identifier are counts with the buffer and without, the open window's too.
#[test]
fn sums_of_the_identifier_are_counts() {
    let sums = |window, counts: &[i64], buffered| {
        let parts = counts
            .iter()
            .map(|&count| part(0, vec![(1, window, count)]));
        let mut probe = card_of(parts.collect());
        let posting = Posting {
            id: 1,
            window: 9,
            count: buffered,
        };
        if buffered != 0 {
            buffer(&mut probe, posting);
        }
        probe
    };
    let over = [
        sums(9, &[32_767, 1], 0),
        sums(9, &[32_767, 1], -1),
        sums(9, &[32_767], 1),
        sums(9, &[-32_767, -1], 0),
        sums(2000, &[32_767, 1], 0),
        sums(2001, &[-32_767, -32_767], 0),
    ];
    for probe in over {
        assert_eq!(told(&probe, b"B"), Err(3));
        assert_eq!(told(&probe, b"A"), Err(15));
        assert_eq!(told(&probe, b"X"), Err(15));
    }
    let within = [
        (sums(9, &[32_767, 1, -1], 0), Ok((32_767, 0, 1))),
        (sums(9, &[32_766], 1), Ok((32_767, 0, 1))),
        (sums(9, &[-32_767], 32_767), Err(15)),
        (sums(2000, &[32_767], 0), Err(15)),
        (
            sums(2001, &[32_767, 32_767, -32_767], 0),
            Ok((32_767, 0, 1)),
        ),
    ];
    for (probe, expected) in within {
        assert_eq!(told(&probe, b"B"), expected);
    }
}

/// 1 before 2, 2 before 3.
#[test]
fn state_and_lengths_come_first() {
    let mut probe = changed(0, 3);
    assert_eq!(outcome(&probe, &mean(b"")), 3);
    probe.register.pop();
    assert_eq!(outcome(&probe, &mean(b"")), 2);
    probe.register.push(0);
    probe.card.push(255);
    assert_eq!(outcome(&probe, &mean(b"")), 2);
    probe.state.taken = 16;
    assert_eq!(outcome(&probe, &mean(b"")), 1);
}
