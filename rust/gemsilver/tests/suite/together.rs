//! Windows removed together, by hand and at random. Each list is held against single removals where it is made.

use crate::damage::{damage, spoil};
use crate::engines::{Call, NOTHING, Probe};
use crate::history::{History, Odds, Plan, any_list, name};
use crate::means::probe;
use crate::pair::{BAD_LIST, Pair};
use crate::parts::{BLOCK, Mix, advance, build, levels};
use crate::rng::Rng;
use crate::tally::Tally;
use crate::words::{at, put, word};
use second::image;
use second::state::{Posting, State};

/// A call that both engines must do alike.
fn make(pair: &mut Pair, call: Call) {
    let answer = pair.make(&call, &mut Tally::default());
    assert!(answer.is_ok(), "{call:?}: {answer:?}");
}

/// Removes windows together: nothing, or a refusal.
fn together(pair: &mut Pair, windows: &[u32]) -> Result<(), u32> {
    let call = Call::RemoveAll(windows.to_vec());
    let answer = pair.make(&call, &mut Tally::default());
    answer.map(|told| assert_eq!(told, NOTHING))
}

/// A closed window that counts the first so many names once each.
fn window(pair: &mut Pair, names: usize) {
    make(pair, Call::Open);
    for number in 0..names {
        make(pair, Call::Event(name(number)));
    }
    make(pair, Call::Close);
}

/// Closed windows with so many names each, in a partition each.
fn on_card(blocks: usize, names: &[usize]) -> Pair {
    let mut pair = Pair::start(blocks, 64, &mut Tally::default());
    for &names in names {
        window(&mut pair, names);
        make(&mut pair, Call::Flush);
    }
    pair
}

fn state(pair: &Pair) -> State {
    image::read(&pair.probe().image).expect("an image")
}

#[test]
fn a_list_has_1_to_32_different_windows() {
    let mut pair = Pair::start(16, 64, &mut Tally::default());
    for _ in 0..40 {
        window(&mut pair, 1);
    }
    let all: Vec<u32> = (1..=40).collect();
    for length in [0, 33, 40] {
        assert_eq!(together(&mut pair, &all[..length]), Err(BAD_LIST));
    }
    for list in [[1, 1, 2], [1, 2, 1], [2, 1, 1], [99, 1, 99]] {
        assert_eq!(together(&mut pair, &list), Err(BAD_LIST), "{list:?}");
    }
    let mut list = all[..32].to_vec();
    list[31] = 1;
    assert_eq!(together(&mut pair, &list), Err(BAD_LIST));
    assert_eq!(together(&mut pair, &all[..32]), Ok(()));
    assert_eq!(state(&pair).windows.live, 8);
    // Numbers that are alike in their lower halves are two.
    assert_eq!(together(&mut pair, &[33, 65_536 + 33]), Err(7));
    assert_eq!(together(&mut pair, &[33]), Ok(()));
    assert_eq!(state(&pair).windows.live, 7);
}

/// Windows 1 to 4 are closed, 5 is open, and there is no 9.
#[test]
fn the_first_refused_removal_is_told_and_none_is_done() {
    let mut pair = on_card(16, &[3, 2, 1, 3]);
    make(&mut pair, Call::Open);
    make(&mut pair, Call::Event(name(0)));
    let cases: [(&[u32], u32); 7] = [
        (&[1, 5, 2], 5),
        (&[1, 9, 2], 7),
        (&[1, 5, 9, 2], 5),
        (&[1, 9, 5, 2], 7),
        (&[1, 2, 3, 4, 5], 5),
        (&[1, 2, 3, 4, 0], 7),
        (&[4, 3, u32::MAX], 7),
    ];
    for (list, expected) in cases {
        assert_eq!(together(&mut pair, list), Err(expected), "{list:?}");
        assert_eq!(state(&pair).windows.live, 4);
    }
    assert_eq!(together(&mut pair, &[4, 1, 3]), Ok(()));
    assert_eq!(together(&mut pair, &[2, 3]), Err(7));
    assert_eq!(together(&mut pair, &[2]), Ok(()));
    assert_eq!(state(&pair).windows.live, 0);
}

/// The postings of the newest partition, a word each.
fn newest(pair: &Pair) -> Vec<u32> {
    let records = state(pair).partitions.to_list();
    let first = usize::from(records.last().expect("a partition").first);
    let block = &pair.probe().card[first * BLOCK..][..BLOCK];
    let start = word(block, 3) as usize / 4;
    let postings = start..start + word(block, 1) as usize;
    postings.map(|place| word(block, place)).collect()
}

/// Of 64, 40 and 30 names any two fit into the buffer, and the third does not: the two first of the list are in the partition, its
/// last is in the buffer.
#[test]
fn the_order_decides_what_a_flush_writes() {
    let names = [64, 40, 30];
    for list in [
        [1, 2, 3],
        [1, 3, 2],
        [2, 1, 3],
        [2, 3, 1],
        [3, 1, 2],
        [3, 2, 1],
    ] {
        let mut pair = on_card(16, &names);
        assert_eq!(together(&mut pair, &list), Ok(()));
        assert_eq!(state(&pair).partitions.used, 4);
        let written = newest(&pair);
        let counted = |window: u32| {
            // One count below 0 of each name.
            let posting = window << 16 | 0x8001;
            written.iter().filter(|&&word| word == posting).count()
        };
        let [first, second, last] = list.map(|window| names[window as usize - 1]);
        assert_eq!(list.map(counted), [first, second, 0], "{list:?}");
        assert_eq!(written.len(), first + second);
        let left = state(&pair).buffer.to_list();
        assert_eq!(left.len(), last);
        let is_last =
            |posting: &Posting| (u32::from(posting.window), posting.count) == (list[2], -1);
        assert!(left.iter().all(is_last), "{list:?}");
    }
}

/// Window 1 has 60 names on the card; 2 and 3 have 64 and 20 in the buffer.
#[test]
fn counts_that_cancel_make_room_where_they_come_first() {
    for (list, partitions, buffered) in [([3, 1], 1, 124), ([1, 3], 2, 80)] {
        let mut pair = on_card(16, &[60]);
        window(&mut pair, 64);
        window(&mut pair, 20);
        assert_eq!(together(&mut pair, &list), Ok(()));
        let state = state(&pair);
        assert_eq!(
            (state.partitions.used, state.buffer.used),
            (partitions, buffered)
        );
    }
}

/// Five windows of 50 names on the card: the third removal flushes, and the fifth.
#[test]
fn a_flush_refused_at_a_later_window_refuses_the_list() {
    let list = [1, 2, 3, 4, 5];
    for (others, expected) in [(11, Err(10)), (10, Err(10)), (9, Ok(()))] {
        let mut pair = on_card(64, &[50; 5]);
        for _ in 0..others {
            window(&mut pair, 1);
            make(&mut pair, Call::Flush);
        }
        assert_eq!(together(&mut pair, &[1, 2, 99, 3]), Err(7));
        assert_eq!(together(&mut pair, &list), expected, "{others}");
    }
    for (blocks, expected) in [(10, Err(11)), (12, Err(11)), (14, Ok(()))] {
        let mut pair = on_card(blocks, &[50; 5]);
        assert_eq!(together(&mut pair, &list), expected, "{blocks}");
    }
    for (free, expected) in [(0, Err(12)), (1, Err(12)), (2, Ok(()))] {
        let mut probe = on_card(64, &[50; 5]).probe().clone();
        for number in 5 + free..64 {
            probe.card[number * BLOCK + BLOCK - 1] = 254;
        }
        let mut pair = Pair::of(probe);
        assert_eq!(together(&mut pair, &list), expected, "{free}");
    }
}

/// Windows of 6 to 20 names each: more than are read at a time, with flushes between them.
#[test]
fn every_window_of_a_long_list_has_its_own_counts() {
    for length in [11, 12, 13, 24, 25, 32] {
        let mut pair = Pair::start(64, 64, &mut Tally::default());
        for number in 0..34 {
            window(&mut pair, 6 + number * 7 % 15);
        }
        let list: Vec<u32> = (1..=length).map(|place| place * 5 % 33).collect();
        let mut refused = list.clone();
        *refused.last_mut().expect("a window") = 99;
        assert_eq!(together(&mut pair, &refused), Err(7), "{length}");
        let before = state(&pair).partitions.used;
        assert_eq!(together(&mut pair, &list), Ok(()), "{length}");
        assert_eq!(u32::from(state(&pair).windows.live), 34 - length);
        assert!(state(&pair).partitions.used > before, "{length}");
        let mut others: Vec<u32> = (1..=34).filter(|number| !list.contains(number)).collect();
        others.truncate(32);
        assert_eq!(together(&mut pair, &others), Ok(()), "{length}");
    }
}

/// N counts fewer live windows than have counts.
#[test]
fn n_may_run_out_on_the_way() {
    let cases: [(u32, &[u32], Result<(), u32>); 5] = [
        (0, &[9], Err(7)),
        (1, &[9, 8], Err(7)),
        (2, &[9, 8], Ok(())),
        (2, &[9, 8, 7], Err(7)),
        (3, &[7, 8, 9], Ok(())),
    ];
    for (live, list, expected) in cases {
        let mut probe = probe(&[&[(0, vec![(9, 1), (8, 1), (7, 1)])]]);
        put(&mut probe.image, at::LIVE, live);
        assert_eq!(together(&mut Pair::of(probe), list), expected, "{live}");
    }
}

/// Every window of the list is judged before the list, and the whole card for every list.
#[test]
fn what_is_read_is_judged_first() {
    // Window 9 has a sum that is no count.
    let over = || {
        probe(&[
            &[(0, vec![(9, 32_767), (8, 1)])],
            &[(0, vec![(9, 1), (7, 1)])],
        ])
    };
    let cases: [(&[u32], Result<(), u32>); 8] = [
        (&[8, 7], Ok(())),
        (&[], Err(BAD_LIST)),
        (&[8, 8], Err(BAD_LIST)),
        (&[9], Err(3)),
        (&[8, 9], Err(3)),
        (&[9, 9], Err(3)),
        (&[6, 9], Err(3)),
        (&[8, 8, 9], Err(3)),
    ];
    for (list, expected) in cases {
        assert_eq!(together(&mut Pair::of(over()), list), expected, "{list:?}");
    }
    for length in [32, 33, 40, 300] {
        let mut list: Vec<u32> = (100..100 + length).collect();
        let refused = if length > 32 { BAD_LIST } else { 7 };
        let mut pair = Pair::of(over());
        assert_eq!(together(&mut pair, &list), Err(refused), "{length}");
        *list.last_mut().expect("a window") = 9;
        assert_eq!(together(&mut pair, &list), Err(3), "{length}");
    }
    // A posting without a count, of a window that no list below names; another number of identifiers.
    let change = |place, value| {
        let mut probe = over();
        put(&mut probe.card, place, value);
        probe
    };
    for probe in [change(11, 0x0009_0000), change(0, 2)] {
        expect_all(probe, 3);
    }
    let mut long = over();
    long.card.push(255);
    expect_all(long, 2);
    let mut none = over();
    none.image.pop();
    expect_all(none, 1);
}

/// Every list is refused so, also one that is none.
fn expect_all(probe: Probe, refusal: u32) {
    let mut pair = Pair::of(probe);
    let lists: [&[u32]; 4] = [&[], &[7, 7], &[7], &[5]];
    for list in lists {
        assert_eq!(together(&mut pair, list), Err(refusal), "{list:?}");
    }
}

/// Windows of many names, so that few of them fill the buffer.
const PLAN: Plan = Plan {
    blocks: 40,
    entries: 60,
    calls: 1_000,
    names: 62,
    keep: 6,
    odds: Odds {
        turn: 4,
        event: 100,
        remove: 0,
        together: 1,
        flush: 1,
        step: 30,
        query: 0,
        odd: 0,
    },
};

/// Probes from histories, every other one damaged.
#[test]
fn both_engines_take_lists_alike_where_they_flush() {
    let mut tally = Tally::default();
    let mut on_the_way = Tally::default();
    for seed in 0..4 {
        let mut history = History::new(&PLAN, seed + 300, &mut on_the_way);
        let mut rng = Rng(seed + 310);
        for _ in 0..PLAN.calls {
            history.act(&PLAN, &mut on_the_way);
            let mut probe = history.pair.probe().clone();
            if rng.one_in(2) {
                damage(&mut probe, &mut rng);
            }
            let call = history.any_list(&mut rng);
            let _ = Pair::of(probe).make(&call, &mut tally);
        }
    }
    tally.print("lists of histories");
    tally.expect("remove_all", &[0, 1, 2, 3, 5, 7, BAD_LIST], 30);
    tally.expect_lists("done past the first window", 500);
    tally.expect_lists("done with a flush past the first window", 100);
    tally.expect_lists("done with several flushes", 50);
    tally.expect_lists("refused past the first window", 100);
    tally.expect_lists("refused with a flush", 20);
}

/// Six windows of many names, in several partitions and the buffer.
fn mix(rng: &mut Rng) -> Mix {
    let blocks = 8 + rng.below(32);
    Mix {
        blocks,
        entries: 4,
        ids: (0..10 + rng.below(50) as u16).collect(),
        windows: 6,
        apart: 0,
        spread: 1 + rng.below(3),
        sizes: vec![1, 1, 2, 3_000],
        levels: levels(rng, blocks),
        hollow: usize::MAX,
        cancels: rng.one_in(8),
    }
}

#[test]
fn both_engines_take_lists_alike_on_foreign_probes() {
    let mut tally = Tally::default();
    let mut rng = Rng(320);
    for _ in 0..4_000 {
        let mut probe = build(&mix(&mut rng), &mut rng);
        if rng.one_in(3) {
            spoil(&mut probe.card, &mut rng);
        }
        if rng.one_in(3) {
            advance(&mut probe, rng.pick(&[1, 2, 10]));
        }
        if rng.one_in(8) {
            damage(&mut probe, &mut rng);
        }
        // The buffer may hold more names of window 1 than a window has.
        let list = any_list(&mut rng, (2..=6).collect());
        let _ = Pair::of(probe).make(&Call::RemoveAll(list), &mut tally);
    }
    tally.print("lists on foreign probes");
    tally.expect("remove_all", &[0, 3, 5, 7, 10, 11, BAD_LIST], 100);
    tally.expect("remove_all", &[12], 20);
    tally.expect_lists("done past the first window", 300);
    tally.expect_lists("done with a flush past the first window", 20);
    tally.expect_lists("done with several flushes", 10);
    tally.expect_lists("refused with a flush", 50);
    for refusal in [5, 7, 10, 11, 12] {
        let sight = format!("refused with {refusal} past the first window");
        tally.expect_lists(&sight, 10);
    }
}
