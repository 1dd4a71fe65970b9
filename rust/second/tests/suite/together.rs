//! Windows removed together: all of a list or none, as single removals in its order.

use crate::build::build;
use crate::calls::{Call, make, one_by_one, outcome};
use crate::history::{Odds, Plan, act, any_list, name};
use crate::image::{BLOCK, FREE, decode};
use crate::malformed::{card_of, part};
use crate::rng::Rng;
use crate::tally::Tally;
use crate::twin::Twin;
use second::commands::Probe;
use second::ledger::Ledger;
use second::ledger::account::Entry;
use second::state::{Posting, State};
use std::cmp::Reverse;

/// A closed window that counts the first so many names once each.
fn window(twin: &mut Twin, names: usize) {
    twin.open().unwrap();
    for number in 0..names {
        twin.event(&name(number)).unwrap();
    }
    twin.close().unwrap();
}

/// Closed windows with so many names each, in the buffer.
fn windows(blocks: usize, names: &[usize]) -> Twin {
    let mut twin = Twin::new(blocks, 64);
    for &names in names {
        window(&mut twin, names);
    }
    twin
}

/// The same windows in a partition each.
fn on_card(blocks: usize, names: &[usize]) -> Twin {
    let mut twin = Twin::new(blocks, 64);
    for &names in names {
        window(&mut twin, names);
        twin.flush().unwrap();
    }
    twin
}

fn together(windows: &[u32]) -> Call {
    Call::RemoveAll(windows.to_vec())
}

#[test]
fn a_list_has_1_to_32_windows() {
    let mut twin = windows(16, &[1; 40]);
    let all: Vec<u32> = (1..=40).collect();
    for length in [0, 33, 34, 40] {
        assert_eq!(twin.remove_all(&all[..length]), Err(16), "{length}");
    }
    twin.remove_all(&all[..32]).unwrap();
    assert_eq!(twin.state.windows.live, 8);
    twin.remove_all(&all[32..33]).unwrap();
    assert_eq!(twin.state.windows.live, 7);
    assert_eq!(Twin::new(4, 1).remove_all(&[]), Err(16));
    assert_eq!(Twin::new(4, 1).remove_all(&[1]), Err(7));
}

#[test]
fn a_list_names_no_window_twice() {
    let mut twin = windows(16, &[1; 40]);
    for list in [[1, 1, 2], [1, 2, 1], [2, 1, 1], [0, 0, 0], [1, 99, 99]] {
        assert_eq!(twin.remove_all(&list), Err(16), "{list:?}");
    }
    assert_eq!(twin.remove_all(&[u32::MAX; 2]), Err(16));
    // At both ends of the longest list.
    let mut list: Vec<u32> = (1..=32).collect();
    list[31] = 1;
    assert_eq!(twin.remove_all(&list), Err(16));
    list[31] = 32;
    twin.remove_all(&list).unwrap();
    // Numbers that are alike in their lower halves are two.
    assert_eq!(twin.remove_all(&[33, 65_536 + 33]), Err(7));
    twin.remove_all(&[33]).unwrap();
}

/// Windows 1 to 4 are closed, 5 is open, and there is no 9.
#[test]
fn the_first_refused_removal_is_told_and_none_is_done() {
    let mut twin = on_card(16, &[3, 2, 1, 3]);
    twin.open().unwrap();
    twin.event(&name(0)).unwrap();
    let cases = [
        (vec![5], 5),
        (vec![9], 7),
        (vec![1, 5, 2], 5),
        (vec![1, 9, 2], 7),
        (vec![1, 5, 9, 2], 5),
        (vec![1, 9, 5, 2], 7),
        (vec![1, 2, 3, 4, 5], 5),
        (vec![1, 2, 3, 4, 0], 7),
        (vec![1, 2, 65_536 + 3], 7),
        (vec![4, 3, u32::MAX], 7),
    ];
    for (list, expected) in cases {
        assert_eq!(twin.remove_all(&list), Err(expected), "{list:?}");
        assert_eq!(twin.state.windows.live, 4);
    }
    twin.remove_all(&[4, 1, 3]).unwrap();
    assert_eq!(twin.remove_all(&[2, 3]), Err(7));
    twin.remove_all(&[2]).unwrap();
    assert_eq!(twin.query(&[&name(0)], 4), Ok((vec![], 9)));
    twin.close().unwrap();
    twin.remove_all(&[5]).unwrap();
    assert_eq!(twin.state.windows.live, 0);
}

/// The postings of the newest partition.
fn newest(twin: &Twin) -> Vec<Entry> {
    let records = twin.state.partitions.to_list();
    let record = records.last().expect("a partition");
    decode(&twin.card, &[record.first.into()])
}

fn buffered(state: &State) -> Vec<Entry> {
    let list = state.buffer.to_list().into_iter();
    list.map(|p| (p.id.into(), p.window.into(), p.count.into()))
        .collect()
}

/// One count of the first so many names in each of these windows.
fn counts(windows: &[(u32, usize)], count: i64) -> Vec<Entry> {
    let of_window = |&(window, names): &(u32, usize)| (0..names).map(move |id| (id, window, count));
    let mut entries: Vec<Entry> = windows.iter().flat_map(of_window).collect();
    entries.sort_by_key(|&(id, window, _)| (id, Reverse(window)));
    entries
}

/// Of 64, 40 and 30 names any two fit into the buffer, and the third does not:
/// the two first of the list are in the partition, its last is in the buffer.
#[test]
fn the_order_decides_what_a_flush_writes() {
    let names = [64, 40, 30];
    for list in [
        [1, 2, 3],
        [1, 3, 2],
        [2, 1, 3],
        [2, 3, 1],
        [3, 1, 2],
        [3, 2, 1],
    ] {
        let mut twin = on_card(16, &names);
        twin.remove_all(&list).unwrap();
        let removed = list.map(|window| (window, names[window as usize - 1]));
        assert_eq!(twin.state.partitions.used, 4);
        assert_eq!(newest(&twin), counts(&removed[..2], -1), "{list:?}");
        assert_eq!(buffered(&twin.state), counts(&removed[2..], -1), "{list:?}");
    }
}

/// Window 1 has 60 names on the card; 2 and 3 have 64 and 20 in the buffer.
#[test]
fn the_order_decides_whether_a_flush_comes() {
    let start = || {
        let mut twin = on_card(16, &[60]);
        window(&mut twin, 64);
        window(&mut twin, 20);
        assert_eq!(twin.state.buffer.used, 84);
        twin
    };
    // 84 and 20 fit. They cancel, and 64 and 60 fit too.
    let mut twin = start();
    twin.remove_all(&[3, 1]).unwrap();
    assert_eq!(twin.state.partitions.used, 1);
    let left = [counts(&[(2, 64)], 1), counts(&[(1, 60)], -1)].concat();
    assert_eq!(twin.state.buffer.used, 124);
    assert!(
        left.iter()
            .all(|entry| buffered(&twin.state).contains(entry))
    );
    // 84 and 60 do not fit: window 3 is written before it is taken back.
    let mut twin = start();
    twin.remove_all(&[1, 3]).unwrap();
    assert_eq!(twin.state.partitions.used, 2);
    assert_eq!(newest(&twin), counts(&[(2, 64), (3, 20)], 1));
    assert_eq!(buffered(&twin.state), counts(&[(1, 60), (3, 20)], -1));
}

/// Two windows of 64 names fill the buffer. All would cancel, but count all the same.
#[test]
fn counts_that_cancel_need_room_too() {
    let mut twin = windows(16, &[64, 64]);
    twin.remove_all(&[2, 1]).unwrap();
    assert_eq!(newest(&twin), counts(&[(1, 64), (2, 64)], 1));
    assert_eq!(buffered(&twin.state), counts(&[(1, 64), (2, 64)], -1));
    // 64 and 64 fit, and cancel.
    let mut twin = windows(16, &[64]);
    twin.remove_all(&[1]).unwrap();
    assert_eq!((twin.state.buffer.used, twin.state.partitions.used), (0, 0));
}

/// Window 2 has counts of one name on the card and in the buffer, of one on the
/// card alone and of one in the buffer alone.
#[test]
fn counts_on_the_card_and_in_the_buffer_go_together() {
    let mut twin = windows(16, &[2]);
    twin.open().unwrap();
    for number in [0, 0, 1] {
        twin.event(&name(number)).unwrap();
    }
    twin.flush().unwrap();
    for number in [0, 2] {
        twin.event(&name(number)).unwrap();
    }
    twin.close().unwrap();
    twin.remove_all(&[2, 1]).unwrap();
    let left = [(0, 2, -2), (0, 1, -1), (1, 2, -1), (1, 1, -1)];
    assert_eq!(buffered(&twin.state), left);
    for number in 0..3 {
        assert_eq!(twin.mean(&name(number)), Err(15));
    }
}

/// Five windows of 50 names on the card: the third removal flushes, and the fifth.
const FIVE: [usize; 5] = [50; 5];

/// So many other partitions, each with a window of its own.
fn with_others(mut twin: Twin, others: usize) -> Twin {
    for _ in 0..others {
        window(&mut twin, 1);
        twin.flush().unwrap();
    }
    twin
}

#[test]
fn a_full_level_refuses_the_whole_list() {
    for (others, expected) in [(11, Err(10)), (10, Err(10)), (9, Ok(()))] {
        let mut twin = with_others(on_card(64, &FIVE), others);
        assert_eq!(twin.remove_all(&[1, 2, 3, 4, 5]), expected, "{others}");
    }
    // The first removal that is refused is told, and a bad list before any.
    let mut twin = with_others(on_card(64, &FIVE), 11);
    assert_eq!(twin.remove_all(&[1, 2, 99, 3]), Err(7));
    assert_eq!(twin.remove_all(&[1, 2, 3, 99]), Err(10));
    assert_eq!(twin.remove_all(&[1, 2, 3, 3]), Err(16));
    // Merged, they leave room.
    while twin.step().is_ok() {}
    twin.remove_all(&[1, 2, 3, 4, 5]).unwrap();
}

#[test]
fn a_card_half_full_refuses_the_whole_list() {
    for (blocks, flushes) in [(10, 0), (11, 0), (12, 1), (13, 1), (14, 2), (15, 2)] {
        let mut twin = on_card(blocks, &FIVE);
        let expected = if flushes < 2 { Err(11) } else { Ok(()) };
        let list = [1, 2, 3, 4, 5];
        assert_eq!(twin.remove_all(&list), expected, "{blocks}");
        // As far as there is room.
        if expected.is_err() {
            let fits = 2 * (flushes + 1);
            assert_eq!(twin.remove_all(&list[..fits + 1]), Err(11), "{blocks}");
            twin.remove_all(&list[..fits]).unwrap();
        }
    }
}

#[test]
fn too_few_free_blocks_refuse_the_whole_list() {
    for (free, expected) in [(0, 12), (1, 12), (2, 0)] {
        let mut probe = on_card(64, &FIVE).probe();
        for number in 5 + free..64 {
            probe.card[number * BLOCK + 4095] = 254;
        }
        let list = [1, 2, 3, 4, 5];
        assert_eq!(outcome(&probe, &together(&list)), expected, "{free}");
        let fits = (2 * (free + 1)).min(5);
        assert_eq!(outcome(&probe, &together(&list[..fits])), 0, "{free}");
    }
}

/// 32 windows of 64 names in a partition of level 1, the buffer full with two
/// more windows, and so many partitions of level 0.
fn widest(others: u32) -> Twin {
    let mut ledger = Ledger::new(96, 64);
    ledger.known = (0..64).map(name).collect();
    ledger.last = 34 + others;
    let sizes: Vec<(u32, usize)> = (1..=34).map(|window| (window, 64)).collect();
    for window in 1..=ledger.last {
        let names = if window <= 34 { 64 } else { 1 };
        let counts = ledger.known[..names].iter().map(|name| (name.clone(), 1));
        ledger.live.insert(window, counts.collect());
    }
    ledger.account.parts = vec![part(1, counts(&sizes[..32], 1))];
    for window in 35..=ledger.last {
        ledger
            .account
            .parts
            .push(part(0, counts(&[(window, 1)], 1)));
    }
    for (id, window, count) in counts(&sizes[32..], 1) {
        ledger.account.add(id, window, count);
    }
    let probe = build(&ledger);
    Twin::of(probe.state, probe.card, probe.register, ledger)
}

/// Every other removal of the longest list flushes, and level 0 has just room.
#[test]
fn the_longest_list_of_the_widest_windows_flushes_16_times() {
    let list: Vec<u32> = (1..=32).collect();
    let mut twin = widest(0);
    twin.remove_all(&list).unwrap();
    assert_eq!(twin.state.partitions.used, 17);
    assert_eq!(newest(&twin), counts(&[(29, 64), (30, 64)], -1));
    assert_eq!(buffered(&twin.state), counts(&[(31, 64), (32, 64)], -1));
    let mut twin = widest(1);
    assert_eq!(twin.remove_all(&list), Err(10));
    twin.remove_all(&list[..30]).unwrap();
}

/// N counts fewer live windows than have counts.
#[test]
fn n_may_run_out_on_the_way() {
    let mut probe = card_of(vec![part(0, vec![(0, 9, 1), (0, 8, 1), (0, 7, 1)])]);
    let cases: [(u16, &[u32], u8); 9] = [
        (0, &[9], 7),
        (0, &[2000, 9], 5),
        (0, &[9, 2000], 7),
        (1, &[9], 0),
        (1, &[9, 8], 7),
        (1, &[9, 2000], 5),
        (2, &[9, 8], 0),
        (2, &[9, 8, 7], 7),
        (3, &[7, 8, 9], 0),
    ];
    for (live, list, expected) in cases {
        probe.state.windows.live = live;
        assert_eq!(outcome(&probe, &together(list)), expected, "{live}");
    }
    make(&mut probe, &together(&[8, 9])).unwrap();
    assert_eq!(probe.state.windows.live, 1);
}

/// Cards on which window 9 is malformed, and 8 and 7 can be removed.
fn malformed() -> [Probe; 5] {
    let nine = |counts: &[i64], buffered: i16| {
        let mut parts: Vec<_> = counts
            .iter()
            .map(|&count| part(0, vec![(0, 9, count)]))
            .collect();
        parts.push(part(0, vec![(0, 8, 1), (0, 7, 1)]));
        let mut probe = card_of(parts);
        if buffered != 0 {
            probe.state.buffer.used = 2;
            probe.state.buffer.postings[1] = Posting {
                id: 0,
                window: 9,
                count: buffered,
            };
        }
        probe
    };
    let mut wide = vec![(0, 9, 1), (0, 8, 1), (0, 7, 1)];
    wide.extend((1..65).map(|id| (id, 9, -1)));
    [
        nine(&[32_767, 1], 0),
        nine(&[-32_767, -1], 0),
        nine(&[32_767, 1], -1),
        nine(&[32_767], 1),
        card_of(vec![part(0, wide)]),
    ]
}

/// Every window of the list is judged before the list, and that before any removal.
#[test]
fn what_is_read_comes_before_the_list() {
    for probe in malformed() {
        let cases: [(&[u32], u8); 9] = [
            (&[8, 7], 0),
            (&[8, 8], 16),
            (&[], 16),
            (&[9], 3),
            (&[8, 9], 3),
            (&[9, 9], 3),
            (&[6, 9], 3),
            (&[2000, 9], 3),
            (&[8, 7, 7, 9], 3),
        ];
        for (list, expected) in cases {
            assert_eq!(outcome(&probe, &together(list)), expected, "{list:?}");
        }
        for length in [2, 32, 33, 40, 200] {
            let mut list: Vec<u32> = (100..100 + length).collect();
            let refused = if length > 32 { 16 } else { 7 };
            assert_eq!(outcome(&probe, &together(&list)), refused);
            for place in [0, length / 2, length - 1] {
                let other = std::mem::replace(&mut list[place as usize], 9);
                assert_eq!(outcome(&probe, &together(&list)), 3, "{length}");
                list[place as usize] = other;
            }
        }
    }
}

/// Lists of A and B, and A once more.
///
/// Block 0: entries at 32, 44; lists at 56, 64.
fn lists() -> Probe {
    card_of(vec![
        part(0, vec![(0, 9, 5), (0, 5, 4), (1, 9, 1), (1, 3, 1)]),
        part(0, vec![(0, 9, -3)]),
    ])
}

#[test]
fn the_whole_card_is_read_for_every_list() {
    let long: Vec<u32> = (100..140).collect();
    let cases: [(&[u32], u8); 6] = [
        (&[], 16),
        (&long, 16),
        (&[9, 9], 16),
        (&[9, 5], 0),
        (&[7], 7),
        (&[2000], 5),
    ];
    for (list, expected) in cases {
        assert_eq!(outcome(&lists(), &together(list)), expected, "{list:?}");
    }
    let changes = [
        (0, 3),            // another number of identifiers
        (24, 1),           // another lowest window
        (28, 8),           // another highest window
        (44, 0),           // entries that do not ascend
        (36, 1),           // lists that do not follow each other
        (BLOCK - 4, 0),    // a chain that does not end
        (56, 0x0005_0005), // the window of the next one
        (60, 0x0005_0000), // no count
        (68, 0x0000_0001), // window 0
    ];
    for (offset, value) in changes {
        let mut probe = lists();
        probe.card[offset..][..4].copy_from_slice(&u32::to_le_bytes(value));
        for (list, _) in cases {
            assert_eq!(outcome(&probe, &together(list)), 3, "{offset}: {list:?}");
        }
    }
}

/// 1 before 2, 2 before 3, 3 before 16, 16 before 5 and 7.
#[test]
fn state_and_lengths_come_first() {
    let mut probe = lists();
    let expect = |probe: &Probe, expected: [u8; 3]| {
        let all: [&[u32]; 3] = [&[], &[2000, 7, 2000], &[2000, 7]];
        assert_eq!(all.map(|list| outcome(probe, &together(list))), expected);
    };
    expect(&probe, [16, 16, 5]);
    probe.card[0] = 3;
    expect(&probe, [3; 3]);
    probe.card.push(255);
    expect(&probe, [2; 3]);
    probe.state.taken = 16;
    expect(&probe, [1; 3]);
    // The register is not read.
    let mut probe = lists();
    probe.register.clear();
    expect(&probe, [16, 16, 5]);
}

/// Notes what a list came to, how long it was and whether it flushed.
fn record(tally: &mut Tally, probe: &Probe, list: &[u32]) {
    let number = outcome(probe, &together(list));
    tally.record("remove_all", Some(number).filter(|&number| number > 0));
    // How far single removals come, and how many of them flush.
    let mut after = probe.clone();
    let removals = list.iter().take_while(|&&window| {
        let is_judged = (1..=3).contains(&number) || number == 16;
        !is_judged && make(&mut after, &Call::Remove(window)).is_ok()
    });
    let removed = removals.count();
    let flushes = after.state.partitions.used - probe.state.partitions.used;
    let kind = if number == 0 { "done" } else { "refused" };
    if removed > usize::from(number == 0) {
        tally.see(&format!("{kind} past the first window"));
    }
    if flushes > 0 {
        tally.see(&format!("{kind} with a flush"));
    }
    if flushes > 1 {
        tally.see(&format!("{kind} with several flushes"));
    }
}

/// Windows of many names, so that few of them fill the buffer.
pub const PLAN: Plan = Plan {
    seed: 0,
    blocks: 40,
    entries: 60,
    calls: 1000,
    names: 62,
    keep: 6,
    odds: Odds {
        turn: 4,
        event: 100,
        remove: 0,
        together: 1,
        flush: 1,
        step: 30,
        query: 0,
        odd: 0,
    },
};

/// Each list is held against single removals where it is made.
#[test]
fn histories_take_lists_as_single_removals() {
    let mut tally = Tally::default();
    let mut lists = Rng(401);
    for seed in 0..4 {
        let mut rng = Rng(seed + 410);
        let mut twin = Twin::new(PLAN.blocks, PLAN.entries);
        for _ in 0..PLAN.calls {
            act(&mut twin, &mut rng, &PLAN);
            if lists.one_in(2) {
                let list = any_list(&mut lists, &twin.ledger);
                record(&mut tally, &twin.probe(), &list);
            }
        }
    }
    tally.print("Lists of windows of histories:");
    tally.expect_done("remove_all", 500);
    for number in [5, 7, 16] {
        tally.expect_refused(number, 30);
    }
    tally.expect_seen("done past the first window", 500);
    tally.expect_seen("done with a flush", 200);
    tally.expect_seen("done with several flushes", 60);
    tally.expect_seen("refused past the first window", 100);
    tally.expect_seen("refused with a flush", 20);
}

/// Counts of six windows, one pair in two.
fn some_counts(names: usize, sizes: &[i64], rng: &mut Rng) -> Vec<Entry> {
    let mut entries = Vec::new();
    for (id, window) in (0..names).flat_map(|id| [6, 5, 4, 3, 2, 1].map(|window| (id, window))) {
        if rng.one_in(2) {
            let size = rng.pick(sizes);
            let count = if rng.one_in(3) { -size } else { size };
            entries.push((id, window, count));
        }
    }
    entries.push((names, 1, 1));
    entries
}

/// A foreign card: windows in several partitions and the buffer, with counts
/// below 0 and sums of 0, and any N.
fn foreign(rng: &mut Rng) -> Probe {
    let names = rng.pick(&[2, 20, 40, 60, 60, 66]);
    let sizes = rng.pick(&[[1, 1, 1], [1, 2, 7], [1, 2, 7], [1, 9_000, 32_767]]);
    let parts = (0..rng.pick(&[0, 1, 2, 3, 5, 6, 7, 15, 16]))
        .map(|_| part(0, some_counts(names, &sizes, rng)));
    let mut probe = card_of(parts.collect());
    if rng.one_in(2) {
        make(&mut probe, &Call::Close).unwrap();
    }
    probe.state.windows.live = rng.pick(&[0, 1, 2, 3, 6, 1500]);
    let entries = some_counts(names, &sizes, rng);
    let used = entries.len().min(rng.pick(&[0, 3, 40, 90, 128]));
    probe.state.buffer = Default::default();
    probe.state.buffer.used = used as u16;
    for (place, entry) in probe.state.buffer.postings.iter_mut().zip(&entries[..used]) {
        *place = Posting {
            id: entry.0 as u16,
            window: entry.1 as u16,
            count: entry.2 as i16,
        };
    }
    if rng.one_in(3) {
        let free = rng.below(3);
        let blocks = probe.card.chunks_exact_mut(BLOCK);
        for block in blocks.filter(|block| **block == FREE).skip(free) {
            block[rng.below(BLOCK)] = 0;
        }
    }
    probe
}

/// Windows with counts and without, the open one among them.
fn foreign_list(rng: &mut Rng) -> Vec<u32> {
    let mut all = vec![1, 2, 3, 4, 5, 6];
    let mut list = Vec::new();
    for _ in 0..rng.below(7) {
        list.push(all.swap_remove(rng.below(all.len())));
    }
    if rng.one_in(5) {
        let odd = rng.pick(&[0, 7, 2000, 2000, 2001, 65_537, 3]);
        list.insert(rng.below(list.len() + 1), odd);
    }
    list
}

#[test]
fn foreign_cards_take_lists_as_single_removals() {
    let mut tally = Tally::default();
    let mut rng = Rng(420);
    for _ in 0..3000 {
        let probe = foreign(&mut rng);
        record(&mut tally, &probe, &foreign_list(&mut rng));
    }
    tally.print("Lists of windows on foreign cards:");
    tally.expect_done("remove_all", 300);
    for number in [3, 5, 7, 10, 11, 12, 16] {
        tally.expect_refused(number, 20);
    }
    tally.expect_seen("done past the first window", 200);
    tally.expect_seen("done with a flush", 100);
    tally.expect_seen("done with several flushes", 30);
    tally.expect_seen("refused past the first window", 100);
    tally.expect_seen("refused with a flush", 30);
}

/// Removals of a list in another order leave the same counts, if not the same bytes.
#[test]
fn the_order_changes_no_answer() {
    let names = [64, 40, 30, 20, 64];
    let mut forward = on_card(32, &names);
    let mut backward = on_card(32, &names);
    forward.remove_all(&[1, 2, 3, 4]).unwrap();
    backward.remove_all(&[4, 3, 2, 1]).unwrap();
    assert!(forward.state != backward.state);
    for number in [0, 25, 35, 50, 63] {
        let id = name(number);
        assert_eq!(
            forward.query(&[&id], 32).map(|(hits, _)| hits),
            backward.query(&[&id], 32).map(|(hits, _)| hits)
        );
        assert_eq!(forward.mean(&id), backward.mean(&id));
    }
    // The bytes are those of single removals in the order given.
    let (probe, list) = (on_card(32, &names).probe(), [1, 2, 3, 4]);
    let (after, result) = one_by_one(&probe, &list);
    assert_eq!(result, Ok(()));
    assert!(after == forward.probe() && after != backward.probe());
}
