//! Queries over a stretch of windows: N, F and hits inside it, and partitions passed over.

use crate::calls::{outcome, query_in};
use crate::history::{Odds, Plan, act, name};
use crate::malformed::{card_of, part};
use crate::rng::Rng;
use crate::twin::Twin;
use second::state::Partition;
use second::stretch::Stretch;

const LUCKY: &[u8] = b"LUCKY";
const TILT: &[u8] = b"TILT";

fn over(first: u16, last: u16) -> Stretch {
    Stretch { first, last }
}

/// A closed window with these identifiers once each.
fn window(twin: &mut Twin, identifiers: &[&[u8]]) {
    twin.open().unwrap();
    for identifier in identifiers {
        twin.event(identifier).unwrap();
    }
    twin.close().unwrap();
}

/// Partitions of windows 1 and 2, of 3 and 4 and of 5; window 6 is buffered. LUCKY is in 1, 3, 4 and 6, TILT in 2, 3 and 5.
fn six_windows() -> Twin {
    let mut twin = Twin::new(16, 4);
    for (number, identifiers) in (1..).zip([
        &[LUCKY][..],
        &[TILT],
        &[LUCKY, TILT],
        &[LUCKY],
        &[TILT],
        &[LUCKY],
    ]) {
        window(&mut twin, identifiers);
        if [2, 4, 5].contains(&number) {
            twin.flush().unwrap();
        }
    }
    twin
}

/// Lowest and highest window of each partition.
fn spans(twin: &Twin) -> Vec<(u16, u16)> {
    let span = |record: &Partition| (record.lowest, record.highest);
    twin.state.partitions.to_list().iter().map(span).collect()
}

#[test]
fn windows_inside_are_counted_and_partitions_outside_passed_over() {
    let mut twin = six_windows();
    assert_eq!(spans(&twin), [(1, 2), (3, 4), (5, 5)]);
    let mut ask = |first, last| twin.query_in(&[LUCKY], over(first, last), 8).unwrap();
    // Four windows of six weigh 41 - 32.
    let nine = |windows: &[u32]| windows.iter().map(|&it| (it, 16 * 9)).collect::<Vec<_>>();
    assert_eq!(ask(1, 65_535), (nine(&[6, 4, 3, 1]), 4));
    assert_eq!(ask(1, 6), (nine(&[6, 4, 3, 1]), 4));
    // Two windows of four weigh 16: LUCKY is in 3 and 4 of 2 to 5. The buffered posting is taken up.
    assert_eq!(ask(2, 5), (vec![(4, 256), (3, 256)], 4));
    // Both of 3 and 4 have it. The partition of 1 and 2 is passed over.
    assert_eq!(ask(3, 4), (vec![(4, 0), (3, 0)], 3));
    // One window of two: 1 of 1 and 2, 4 of 4 and 5.
    assert_eq!(ask(1, 2), (vec![(1, 256)], 2));
    assert_eq!(ask(4, 5), (vec![(4, 256)], 3));
    // Inside a partition that reaches further.
    assert_eq!(ask(2, 2), (vec![], 2));
    assert_eq!(ask(4, 4), (vec![(4, 0)], 3));
    // In the buffer alone, and beyond everything.
    assert_eq!(ask(6, 6), (vec![(6, 0)], 1));
    assert_eq!(ask(7, 65_535), (vec![], 1));
    assert_eq!(ask(65_535, 65_535), (vec![], 1));
    assert_eq!(ask(5, 5), (vec![], 1));
}

#[test]
fn an_empty_stretch_takes_the_buffer_alone() {
    let mut twin = six_windows();
    assert_eq!(twin.query_in(&[LUCKY], over(0, 0), 8), Ok((vec![], 1)));
    assert_eq!(twin.query_in(&[TILT], over(0, 0), 8), Ok((vec![], 0)));
    // Window 0 is none, so that 0 to 6 is 1 to 6.
    let all = twin.query_in(&[LUCKY, TILT], over(1, 6), 8);
    assert_eq!(twin.query_in(&[LUCKY, TILT], over(0, 6), 8), all);
    twin.flush().unwrap();
    assert_eq!(twin.query_in(&[LUCKY], over(0, 0), 8), Ok((vec![], 0)));
}

#[test]
fn a_first_window_above_the_last_is_refused() {
    let mut twin = six_windows();
    for (first, last) in [(2, 1), (1, 0), (7, 6), (65_535, 65_534), (65_535, 0)] {
        let stretch = over(first, last);
        assert_eq!(twin.query_in(&[LUCKY], stretch, 8), Err(17));
        // After 4 and 14.
        assert_eq!(twin.query_in(&[b""], stretch, 8), Err(4));
        assert_eq!(twin.query_in(&[LUCKY, LUCKY], stretch, 8), Err(14));
        assert_eq!(twin.query_in(&[LUCKY], stretch, 0), Err(14));
        assert_eq!(twin.query_in(&[], stretch, 8), Err(14));
    }
    assert_eq!(Twin::new(4, 1).query_in(&[LUCKY], over(2, 1), 1), Err(17));
}

/// The open window's postings and those that take a window back are postings of their partition.
#[test]
fn open_and_removed_windows_widen_a_partition() {
    let mut twin = six_windows();
    twin.remove(1).unwrap();
    twin.open().unwrap();
    twin.event(TILT).unwrap();
    twin.flush().unwrap();
    // Window 1 is taken back, window 6 was buffered, and 7 is open.
    assert_eq!(spans(&twin), [(1, 2), (3, 4), (5, 5), (1, 7)]);
    let mut ask = |first, last| twin.query_in(&[LUCKY, TILT], over(first, last), 8).unwrap();
    // The last partition is read for every window, and nothing of the open one shows.
    assert_eq!(ask(7, 7), (vec![], 3));
    assert_eq!(ask(1, 1), (vec![], 5));
    assert_eq!(ask(6, 9), (vec![(6, 0)], 3));
    assert_eq!(ask(8, 9), (vec![], 0));
    twin.close().unwrap();
    let (hits, taken) = twin.query_in(&[TILT], over(6, 9), 8).unwrap();
    // One window of two has TILT.
    assert_eq!((hits, taken), (vec![(7, 256)], 1));
}

/// A removed window counts in no N, wherever its postings lie.
#[test]
fn removed_windows_are_not_live() {
    let mut twin = six_windows();
    twin.remove(3).unwrap();
    for _ in 0..2 {
        let (hits, _) = twin.query_in(&[TILT], over(2, 4), 8).unwrap();
        // Window 2 of 2 and 4 has it.
        assert_eq!(hits, [(2, 256)]);
        twin.flush().unwrap();
    }
}

/// Eight partitions become one, whose windows are those of its result.
#[test]
fn a_merged_partition_has_the_windows_of_its_result() {
    let mut twin = Twin::new(64, 4);
    window(&mut twin, &[LUCKY]);
    twin.flush().unwrap();
    for _ in 0..5 {
        window(&mut twin, &[LUCKY]);
    }
    twin.flush().unwrap();
    for window in [1, 6] {
        twin.remove(window).unwrap();
        twin.flush().unwrap();
    }
    for _ in 0..4 {
        twin.open().unwrap();
        twin.event(TILT).unwrap();
        twin.flush().unwrap();
        twin.close().unwrap();
    }
    assert_eq!(
        spans(&twin),
        [
            (1, 1),
            (2, 6),
            (1, 1),
            (6, 6),
            (7, 7),
            (8, 8),
            (9, 9),
            (10, 10)
        ]
    );
    twin.remove(10).unwrap();
    assert_eq!(twin.query_in(&[TILT], over(10, 10), 2), Ok((vec![], 2)));
    while twin.step().is_ok() {}
    assert_eq!(spans(&twin), [(2, 10)]);
    // The merge did not see what takes window 10 back.
    assert_eq!(twin.query_in(&[TILT], over(10, 10), 2), Ok((vec![], 5)));
    assert_eq!(twin.query_in(&[LUCKY], over(1, 1), 2), Ok((vec![], 0)));
    assert_eq!(twin.query_in(&[LUCKY], over(11, 11), 2), Ok((vec![], 0)));
}

/// Short histories, asked over every stretch there is.
#[test]
fn every_stretch_is_the_ledgers() {
    let mut rng = Rng(700);
    let plan = Plan {
        seed: 0,
        blocks: 40,
        entries: 6,
        calls: 0,
        names: 6,
        keep: 2,
        odds: Odds {
            turn: 14,
            event: 24,
            remove: 8,
            together: 0,
            flush: 16,
            step: 10,
            query: 0,
            odd: 0,
        },
    };
    for _ in 0..12 {
        let mut twin = Twin::new(plan.blocks, plan.entries);
        while twin.state.windows.last < 14 {
            act(&mut twin, &mut rng, &plan);
        }
        let last = twin.state.windows.last + 1;
        let ids = [name(rng.below(6)), name(6)];
        for (first, last) in (0..=last).flat_map(|first| (0..=last).map(move |last| (first, last)))
        {
            let found = twin.query_in(&[&ids[0], &ids[1]], over(first, last), 32);
            assert_eq!(found.is_err(), first > last);
        }
    }
}

/// A stretch changes nothing of what a query over all of it finds: hits of a part are hits of all.
#[test]
fn a_part_has_no_other_hits_than_the_whole() {
    let mut twin = six_windows();
    let (all, _) = twin.query(&[LUCKY, TILT], 32).unwrap();
    for (first, last) in (1..=6).flat_map(|first| (first..=6).map(move |last| (first, last))) {
        let (part, _) = twin
            .query_in(&[LUCKY, TILT], over(first, last), 32)
            .unwrap();
        let mut inside: Vec<u32> = all.iter().map(|hit| hit.0).collect();
        inside.retain(|window| (u32::from(first)..=u32::from(last)).contains(window));
        let mut found: Vec<u32> = part.iter().map(|hit| hit.0).collect();
        found.sort_unstable();
        inside.sort_unstable();
        assert_eq!(found, inside, "{first} to {last}");
    }
}

/// At the highest window number, where nothing is above.
#[test]
fn the_highest_window_ends_a_stretch() {
    let probe = card_of(vec![
        part(0, vec![(0, 65_535, 1), (0, 65_534, 1)]),
        part(0, vec![(0, 1, 1)]),
    ]);
    for (first, last) in [(65_535, 65_535), (1, 1), (2, 65_533), (0, 65_535)] {
        assert_eq!(outcome(&probe, &query_in(&[b"A"], over(first, last))), 0);
    }
    assert!(over(2, 65_533).passes_over(&probe.state.partitions.records[0]));
    assert!(!over(0, 65_534).passes_over(&probe.state.partitions.records[0]));
    assert!(over(2, 65_533).passes_over(&probe.state.partitions.records[1]));
}
