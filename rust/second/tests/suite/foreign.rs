//! What the calls do with states and cards that no history of theirs made.

use crate::build::build;
use crate::calls::{Call, event, make, mean, outcome, query, query_in};
use crate::image::BLOCK;
use crate::malformed::{card_of, part};
use crate::twin::Twin;
use second::commands::Probe;
use second::engine;
use second::ledger::Ledger;
use second::state::{Hit, Posting};
use second::stretch::Stretch;
use std::collections::BTreeMap;

fn posting(id: u16, window: u16, count: i16) -> Posting {
    Posting { id, window, count }
}

/// Puts a list of postings into the buffer.
fn buffered(probe: &mut Probe, postings: &[Posting]) {
    probe.state.buffer = Default::default();
    probe.state.buffer.postings[..postings.len()].copy_from_slice(postings);
    probe.state.buffer.used = postings.len() as u16;
}

/// A buffer of 128 postings of window 7.
fn full(probe: &mut Probe) {
    let postings: Vec<Posting> = (0..128).map(|id| posting(id, 7, 1)).collect();
    buffered(probe, &postings);
}

/// So many partitions of level 0 with one posting each, on 16 blocks.
fn small_parts(count: u32) -> Probe {
    let parts = (1..=count).map(|window| part(0, vec![(0, window, 1)]));
    card_of(parts.collect())
}

/// The next number is listed for the open window before it is in the register.
#[test]
fn a_coming_number_may_be_listed_already() {
    let mut probe = small_parts(0);
    probe.state.listed.used = 64;
    probe.state.listed.ids = std::array::from_fn(|place| 63 - place as u16);
    let listed = probe.state.listed.clone();
    make(&mut probe, &event(b"E")).unwrap();
    assert_eq!(probe.state.listed, listed);
    assert_eq!(probe.register[4 * 65..][..2], [1, b'E']);
    let expected = [posting(0, 2000, 1), posting(4, 2000, 1)];
    assert_eq!(probe.state.buffer.to_list(), expected);
    // Without it among the 64, it is a 65th.
    let mut probe = small_parts(0);
    probe.state.listed.used = 64;
    probe.state.listed.ids = std::array::from_fn(|place| place as u16 + 10);
    assert_eq!(outcome(&probe, &event(b"E")), 9);
}

/// The pair of a new identifier is in a full buffer already.
#[test]
fn a_coming_number_may_be_buffered_already() {
    let mut probe = small_parts(0);
    full(&mut probe);
    probe.state.buffer.postings[4].window = 2000;
    make(&mut probe, &event(b"E")).unwrap();
    assert_eq!(probe.state.partitions.used, 0);
    assert_eq!(probe.state.buffer.postings[4], posting(4, 2000, 2));
}

/// N is counted from card and buffer, by whatever identifiers, and the state's N is not asked.
#[test]
fn live_windows_are_counted_where_their_counts_lie() {
    let mut lists = [1, 2, 3].map(|window| vec![(0, window, 1)]).to_vec();
    let all_have_it = card_of(lists.iter().map(|list| part(0, list.clone())).collect());
    // Windows of another identifier, of one that the register has not, and with no sum above 0.
    lists.push(vec![(1, 5, 1), (1, 4, 1)]);
    lists.push(vec![(1, 8, -1), (2, 9, 7), (1023, 6, 1)]);
    lists.push(vec![(2, 9, -7)]);
    let half_have_it = card_of(lists.into_iter().map(|list| part(0, list)).collect());
    for live in [0, 2, 3, 6, 1999] {
        let ask = |mut probe: Probe| {
            probe.state.windows.live = live;
            hits_of_a(&probe)
        };
        // The open window has A as well, which is taken up and no more.
        let nothing = [3, 2, 1].map(|window| (window, 0)).to_vec();
        assert_eq!(ask(all_have_it.clone()), (nothing, 4));
        // Three windows of six weigh 41 - 25.
        let weighed = [3, 2, 1].map(|window| (window, 256)).to_vec();
        assert_eq!(ask(half_have_it.clone()), (weighed, 4));
    }
}

/// Sums of other identifiers need be no counts: only their sign matters to N.
#[test]
fn sums_of_other_identifiers_may_be_of_any_size() {
    let others = |counts: [i64; 3]| {
        let mut parts: Vec<_> = counts
            .iter()
            .map(|&count| part(0, vec![(1, 9, count)]))
            .collect();
        parts.push(part(0, vec![(0, 5, 3)]));
        card_of(parts)
    };
    // One window of two weighs 16, one of one nothing.
    for (counts, score) in [
        ([32_767, 32_767, 32_767], 32 * 16),
        ([-32_767, -32_767, -32_767], 0),
        ([32_767, -32_766, -1], 0),
        ([32_767, 1, -32_767], 32 * 16),
    ] {
        let probe = others(counts);
        assert_eq!(hits_of_a(&probe), (vec![(5, score)], 2), "{counts:?}");
    }
}

/// The windows and scores of A, and the postings taken.
fn hits_of_a(probe: &Probe) -> (Vec<(u16, u32)>, u32) {
    let mut hits = [Hit::default(); 8];
    let (card, register) = (&probe.card, &probe.register);
    let found = engine::query(
        &probe.state,
        card,
        register,
        &[b"A"],
        Stretch::ALL,
        &mut hits,
    );
    let found = found.expect("a query");
    let listed = hits[..usize::from(found.hits)].iter();
    let listed = listed.map(|hit| (hit.window, hit.score));
    (listed.collect(), found.taken)
}

/// Every window but the open one is closed, those above it too.
#[test]
fn windows_above_the_last_number_show_and_the_open_one_does_not() {
    let mut probe = card_of(vec![
        part(0, vec![(0, 2001, 1), (0, 2000, 5)]),
        part(0, vec![(0, 65_535, 3), (0, 2000, 5), (0, 1999, 7)]),
        part(0, vec![(1, 9, 1), (1, 8, 1), (1, 7, 1)]),
    ]);
    // Three windows of six weigh 16. The open one has two postings on the card and one buffered.
    let closed = vec![(1999, 48 * 16), (65_535, 32 * 16), (2001, 16 * 16)];
    assert_eq!(hits_of_a(&probe), (closed, 6));
    // Its close brings its count of 11, which weighs 57, and four windows of seven weigh 44 - 32.
    make(&mut probe, &Call::Close).unwrap();
    let scores = [(2000, 57), (1999, 48), (65_535, 32), (2001, 16)];
    let all = scores
        .map(|(window, weight)| (window, weight * 12))
        .to_vec();
    assert_eq!(hits_of_a(&probe), (all, 6));
}

/// An open window without events gives its number back at its close, and what
/// the card has of it then shows as any other window above the last number.
#[test]
fn an_open_window_without_events_may_have_counts_on_the_card() {
    let entries = vec![(0, 2000, 5), (0, 1999, 7), (1, 5, 1)];
    let mut probe = card_of(vec![part(0, entries)]);
    probe.state.buffer = Default::default();
    probe.state.windows.events = 0;
    probe.state.windows.live = 2;
    assert_eq!(hits_of_a(&probe), (vec![(1999, 48 * 16)], 2));
    make(&mut probe, &Call::Close).unwrap();
    let windows = probe.state.windows;
    assert_eq!((windows.last, windows.live), (1999, 2));
    // Two windows of three weigh 9.
    let both = vec![(1999, 48 * 9), (2000, 41 * 9)];
    assert_eq!(hits_of_a(&probe), (both, 2));
}

/// A sum of the open window that is no count is malformed all the same.
#[test]
fn sums_of_the_open_window_are_counts_too() {
    let parts = |counts: [i64; 2]| counts.map(|count| part(0, vec![(0, 2000, count)])).to_vec();
    // One more is buffered.
    for (counts, expected) in [([32_766, -1], 0), ([32_766, 1], 3), ([32_767, 1], 3)] {
        let probe = card_of(parts(counts));
        assert_eq!(outcome(&probe, &query(&[b"A"])), expected, "{counts:?}");
        assert_eq!(outcome(&probe, &query(&[b"B"])), 0);
        // No closed window has either.
        let refused = if expected == 3 { 3 } else { 15 };
        assert_eq!(outcome(&probe, &mean(b"A")), refused, "{counts:?}");
        assert_eq!(outcome(&probe, &mean(b"B")), 15);
    }
}

/// A sum below 0 is no hit, adds nothing to a score and is no window with it.
#[test]
fn sums_below_0_are_passed_over() {
    let parts = vec![part(0, vec![(1, 9, -3), (1, 5, 3), (2, 9, 1)])];
    let probe = card_of(parts);
    let mut hits = [Hit::default(); 4];
    let (card, register) = (&probe.card, &probe.register);
    let mut ask = |ids: &[&[u8]]| {
        let found = engine::query(&probe.state, card, register, ids, Stretch::ALL, &mut hits);
        (found, hits)
    };
    let (found, hits) = ask(&[b"B"]);
    assert_eq!(found.map(|found| (found.hits, found.taken)), Ok((1, 2)));
    assert_eq!((hits[0].window, hits[0].score), (5, 32 * 16));
    let (found, hits) = ask(&[b"B", b"C"]);
    assert_eq!(found.map(|found| (found.hits, found.taken)), Ok((2, 3)));
    assert_eq!((hits[1].window, hits[1].score), (9, 16 * 16));
}

/// The largest count of five identifiers in one window of all there can be, and
/// one less of one of them. All others have a sixth identifier.
#[test]
fn the_largest_score_is_306000() {
    let names = [b"A", b"B", b"C", b"D", b"E", b"F"].map(|id| id.to_vec());
    let ids: Vec<&[u8]> = names[..5].iter().map(|name| &name[..]).collect();
    for last in [32_767, 32_766] {
        let counts = [32_767, 32_767, 32_767, 32_767, last];
        let mut ledger = Ledger::new(160, 6);
        ledger.known = names.to_vec();
        ledger.last = 65_535;
        let of_others = BTreeMap::from([(names[5].clone(), 1)]);
        ledger.live = (1..=65_535)
            .map(|window| (window, of_others.clone()))
            .collect();
        let of_nine = names.iter().cloned().zip(counts);
        ledger.live.insert(9, of_nine.collect());
        let entries = counts.iter().enumerate();
        let mut entries: Vec<_> = entries.map(|(id, &count)| (id, 9, count.into())).collect();
        let others = (1..=65_535).rev().filter(|&window| window != 9);
        entries.extend(others.map(|window| (5, window, 1)));
        ledger.account.parts = vec![part(5, entries)];
        let probe = build(&ledger);
        let mut twin = Twin::of(probe.state, probe.card, probe.register, ledger);
        // 32,768^16 is 2^240, and one window of 65,535 weighs 255.
        let expected = match last {
            32_767 => 306_000,
            _ => 4 * 240 * 255 + 239 * 255,
        };
        assert_eq!(twin.query(&ids, 2), Ok((vec![(9, expected)], 5)));
    }
}

#[test]
fn removal_needs_a_live_closed_window() {
    let cases = [
        (1, 0),
        (4, 7),
        (0, 7),
        (2000, 5),
        (2001, 7),
        (65_536, 7),
        (65_537, 7),
    ];
    for (window, expected) in cases {
        assert_eq!(outcome(&small_parts(3), &Call::Remove(window)), expected);
    }
    // N counts none, though window 1 is live by its counts and the open one has an event.
    let mut probe = small_parts(3);
    probe.state.windows.live = 0;
    assert_eq!(outcome(&probe, &Call::Remove(1)), 7);
    assert_eq!(outcome(&probe, &Call::Remove(2000)), 5);
    // N counts one closed window beside the open one, which it does not count.
    probe.state.windows.live = 1;
    make(&mut probe, &Call::Remove(1)).unwrap();
    assert_eq!(probe.state.windows.live, 0);
    assert_eq!(outcome(&probe, &Call::Remove(2)), 7);
    // The close brings the open one.
    make(&mut probe, &Call::Close).unwrap();
    assert_eq!(outcome(&probe, &Call::Remove(2)), 0);
    assert_eq!(outcome(&probe, &Call::Remove(2000)), 0);
    assert_eq!(outcome(&probe, &Call::Remove(0)), 7);
    // A window above the last number given, with a count above 0.
    let probe = card_of(vec![part(0, vec![(0, 2001, 1)])]);
    assert_eq!(outcome(&probe, &Call::Remove(2001)), 7);
    // Counts below 0 only.
    let probe = card_of(vec![part(0, vec![(0, 9, -1)])]);
    assert_eq!(outcome(&probe, &Call::Remove(9)), 7);
}

/// Counts below 0 go as well, and a sum of 0 leaves the buffer.
#[test]
fn removal_takes_back_every_count() {
    let mut probe = card_of(vec![part(0, vec![(0, 9, 3), (1, 9, -2), (2, 9, 5)])]);
    let before = [posting(0, 9, 4), posting(2, 9, -5), posting(3, 9, 6)];
    buffered(&mut probe, &before);
    make(&mut probe, &Call::Remove(9)).unwrap();
    let after = [posting(0, 9, -3), posting(1, 9, 2), posting(2, 9, -5)];
    assert_eq!(probe.state.buffer.to_list(), after);
    assert_eq!(probe.state.windows.live, 1499);
    assert_eq!(outcome(&probe, &Call::Remove(9)), 7);
}

/// Makes the free blocks hold something, all but so many.
fn occupied(mut probe: Probe, used: usize, free: usize) -> Probe {
    for number in used + free..16 {
        probe.card[number * BLOCK + 4095] = 254;
    }
    probe
}

#[test]
fn blocks_that_are_not_all_255_are_not_free() {
    // Of one block: a flush, inside other calls too.
    for (free, expected) in [(0, 12), (1, 0)] {
        let mut probe = occupied(small_parts(3), 3, free);
        assert_eq!(outcome(&probe, &Call::Flush), expected);
        full(&mut probe);
        assert_eq!(outcome(&probe, &event(b"A")), expected);
        assert_eq!(outcome(&probe, &Call::Remove(1)), expected);
    }
    // Of two blocks: a merge of many postings.
    for (free, expected) in [(0, 12), (1, 12), (2, 0)] {
        let lists = (0..8).map(|input| {
            let windows = (1..=200).rev().map(|window| input * 200 + window);
            part(0, windows.map(|window| (0, window, 1)).collect())
        });
        let probe = occupied(card_of(lists.collect()), 8, free);
        assert_eq!(outcome(&probe, &Call::Step), expected);
    }
    // Nothing due: nothing to take.
    assert_eq!(outcome(&occupied(small_parts(7), 7, 0), &Call::Step), 13);
}

/// The blocks after the one last taken come first, that one itself last.
#[test]
fn the_block_last_taken_comes_last() {
    for (taken, free, expected) in [(5, [5, 9], 9), (5, [5, 2], 2), (5, [5, 5], 5)] {
        let mut probe = occupied(small_parts(1), 1, 0);
        for number in free {
            probe.card[number * BLOCK..][..BLOCK].fill(255);
        }
        probe.state.taken = taken;
        make(&mut probe, &Call::Flush).unwrap();
        assert_eq!(probe.state.taken as usize, expected);
        assert_eq!(probe.state.partitions.records[1].first as usize, expected);
    }
}

/// The blocks of finished partitions are counted by their records, whatever
/// the card holds.
#[test]
fn room_is_reckoned_by_the_records() {
    let mut probe = small_parts(7);
    assert_eq!(outcome(&probe, &Call::Flush), 0);
    probe.state.partitions.records[0].length = 4092;
    assert_eq!(outcome(&probe, &Call::Flush), 0);
    probe.state.partitions.records[0].length = 4093;
    assert_eq!(outcome(&probe, &Call::Flush), 11);
    // Nothing to write, nothing to refuse.
    probe.state.buffer = Default::default();
    assert_eq!(outcome(&probe, &Call::Flush), 0);
}

#[test]
fn reasons_come_in_their_order() {
    // 10 before 11 before 12, for a flush and inside an event.
    let mut probe = occupied(small_parts(16), 16, 0);
    full(&mut probe);
    assert_eq!(outcome(&probe, &Call::Flush), 10);
    assert_eq!(outcome(&probe, &event(b"A")), 10);
    let mut probe = occupied(small_parts(8), 8, 0);
    full(&mut probe);
    assert_eq!(outcome(&probe, &Call::Flush), 11);
    assert_eq!(outcome(&probe, &event(b"A")), 11);
    assert_eq!(outcome(&probe, &Call::Remove(1)), 11);
    // 9 before 10, 8 before 9, 6 before 8, 5 before 6, 4 before 5.
    probe.state.listed.used = 64;
    probe.state.listed.ids = std::array::from_fn(|place| place as u16 + 10);
    assert_eq!(outcome(&probe, &event(b"A")), 9);
    probe.register[4 * 65..][..2].copy_from_slice(b"\x01E");
    assert_eq!(outcome(&probe, &event(b"A")), 9);
    assert_eq!(outcome(&probe, &event(b"F")), 8);
    probe.state.windows.events = 32_767;
    assert_eq!(outcome(&probe, &event(b"F")), 6);
    make(&mut probe, &Call::Close).unwrap();
    assert_eq!(outcome(&probe, &event(b"F")), 5);
    assert_eq!(outcome(&probe, &event(b"")), 4);
    // 4 before 14.
    let backward = Stretch { first: 2, last: 1 };
    let no_places = |name: Vec<u8>| Call::Query(vec![name], backward, 0);
    assert_eq!(outcome(&probe, &no_places(vec![0; 65])), 4);
    assert_eq!(outcome(&probe, &query(&[b"A", b"A", b""])), 4);
    assert_eq!(outcome(&probe, &query(&[b"A", b"A"])), 14);
    // 14 before 17.
    assert_eq!(outcome(&probe, &no_places(b"A".to_vec())), 14);
    assert_eq!(outcome(&probe, &query_in(&[b"A", b"A"], backward)), 14);
    assert_eq!(outcome(&probe, &query_in(&[b"A", b""], backward)), 4);
    assert_eq!(outcome(&probe, &query_in(&[b"A", b"X"], backward)), 17);
    // 4 before 15.
    assert_eq!(outcome(&probe, &mean(b"")), 4);
    assert_eq!(outcome(&probe, &mean(&[0; 65])), 4);
    assert_eq!(outcome(&probe, &mean(&[0; 64])), 15);
    // 5 before 6.
    let mut probe = small_parts(0);
    probe.state.buffer = Default::default();
    probe.state.windows.last = 65_535;
    probe.state.windows.open = 65_535;
    assert_eq!(outcome(&probe, &Call::Open), 5);
    make(&mut probe, &Call::Close).unwrap();
    assert_eq!(outcome(&probe, &Call::Open), 6);
}
