//! A window shows from its close on, wherever its counts lie: before, only its postings are taken up.

use crate::twin::Twin;

const LUCKY: &[u8] = b"LUCKY";
const LUCKY_AND_TILT: [&[u8]; 2] = [LUCKY, b"TILT"];

/// Counts identifiers in the open window.
fn count(twin: &mut Twin, identifiers: &[&[u8]]) {
    for identifier in identifiers {
        twin.event(identifier).unwrap();
    }
}

/// Window 1 has LUCKY 3, window 2 DOOR 1; both are closed, and window 3 is open.
fn two_closed() -> Twin {
    let mut twin = Twin::new(64, 40);
    twin.open().unwrap();
    count(&mut twin, &[LUCKY; 3]);
    twin.close().unwrap();
    twin.open().unwrap();
    count(&mut twin, &[b"DOOR"]);
    twin.close().unwrap();
    twin.open().unwrap();
    twin
}

/// Closes window 3, which has LUCKY 1 and TILT 1, between two queries that take up so many postings.
fn close_between_queries(twin: &mut Twin, taken: usize) {
    // Count 3 weighs 32, one window of two 16.
    let before = vec![(1, 32 * 16)];
    assert_eq!(twin.query(&LUCKY_AND_TILT, 32), Ok((before, taken)));
    assert_eq!(twin.state.windows.live, 2);
    twin.close().unwrap();
    // Two windows of three weigh 25 - 16, one of three 25.
    let after = vec![(3, 16 * 9 + 16 * 25), (1, 32 * 9)];
    assert_eq!(twin.query(&LUCKY_AND_TILT, 32), Ok((after, taken)));
    assert_eq!(twin.state.windows.live, 3);
}

#[test]
fn counts_in_the_buffer_show_from_the_close() {
    let mut twin = two_closed();
    count(&mut twin, &LUCKY_AND_TILT);
    close_between_queries(&mut twin, 3);
}

#[test]
fn counts_in_a_partition_show_from_the_close() {
    let mut twin = two_closed();
    count(&mut twin, &LUCKY_AND_TILT);
    twin.flush().unwrap();
    close_between_queries(&mut twin, 3);
}

#[test]
fn counts_in_partition_and_buffer_show_from_the_close() {
    let mut twin = two_closed();
    twin.flush().unwrap();
    count(&mut twin, &[b"TILT"]);
    twin.flush().unwrap();
    count(&mut twin, &[LUCKY]);
    close_between_queries(&mut twin, 3);
}

/// The open window's pair in eight partitions, then merged into one, with a query after each step.
#[test]
fn counts_in_a_merged_partition_show_from_the_close() {
    let mut twin = two_closed();
    for flush in 0..8u8 {
        // Two pairs more each time, so that the merge takes several steps.
        count(&mut twin, &[LUCKY, &[flush], &[flush, flush]]);
        twin.flush().unwrap();
    }
    let open = vec![(1, 32 * 16)];
    assert_eq!(twin.query(&[LUCKY], 32), Ok((open.clone(), 9)));
    twin.step().unwrap();
    assert_eq!(twin.state.merge.steps, 1);
    assert_eq!(twin.query(&[LUCKY], 32), Ok((open.clone(), 9)));
    twin.step().unwrap();
    assert_eq!(twin.state.partitions.used, 1);
    assert_eq!(twin.state.partitions.records[0].level, 1);
    assert_eq!(twin.query(&[LUCKY], 32), Ok((open, 2)));
    twin.close().unwrap();
    // Count 8 weighs 50.
    let closed = vec![(3, 50 * 9), (1, 32 * 9)];
    assert_eq!(twin.query(&[LUCKY], 32), Ok((closed, 2)));
    twin.remove(3).unwrap();
    assert_eq!(twin.query(&[LUCKY], 32), Ok((vec![(1, 32 * 16)], 3)));
}

/// The open window would score highest, and leaves its place to a closed one.
#[test]
fn the_open_window_takes_no_place_in_the_list() {
    let mut twin = two_closed();
    count(&mut twin, &[LUCKY; 7]);
    assert_eq!(twin.query(&[LUCKY], 1), Ok((vec![(1, 32 * 16)], 2)));
    twin.close().unwrap();
    // Count 7 weighs 48.
    assert_eq!(twin.query(&[LUCKY], 1), Ok((vec![(3, 48 * 9)], 2)));
}

#[test]
fn an_open_window_alone_is_not_found() {
    let mut twin = Twin::new(4, 4);
    twin.open().unwrap();
    count(&mut twin, &[b"DOOR"]);
    assert_eq!(twin.state.windows.live, 0);
    assert_eq!(twin.query(&[b"DOOR"], 3), Ok((vec![], 1)));
    assert_eq!(twin.remove(1), Err(5));
    twin.close().unwrap();
    assert_eq!(twin.state.windows.live, 1);
    assert_eq!(twin.query(&[b"DOOR"], 3), Ok((vec![(1, 0)], 1)));
    twin.remove(1).unwrap();
    assert_eq!(twin.query(&[b"DOOR"], 3), Ok((vec![], 0)));
}

#[test]
fn a_close_without_events_changes_no_answer() {
    let mut twin = two_closed();
    let before = twin.query(&[LUCKY, b"DOOR"], 32);
    twin.close().unwrap();
    assert_eq!(twin.query(&[LUCKY, b"DOOR"], 32), before);
    assert_eq!((twin.state.windows.last, twin.state.windows.live), (2, 2));
}

/// All closed windows can be removed while one with events is open.
#[test]
fn removal_goes_on_beside_an_open_window() {
    let mut twin = two_closed();
    count(&mut twin, &LUCKY_AND_TILT);
    for window in [1, 2] {
        twin.remove(window).unwrap();
        assert_eq!(twin.remove(window), Err(7));
    }
    assert_eq!(twin.state.windows.live, 0);
    assert_eq!(twin.query(&LUCKY_AND_TILT, 32), Ok((vec![], 2)));
    twin.close().unwrap();
    assert_eq!(twin.query(&LUCKY_AND_TILT, 32), Ok((vec![(3, 0)], 2)));
}
