//! Means counted by hand.

use crate::engines::{Call, Probe};
use crate::history::name;
use crate::pair::{Pair, UNCOUNTED};
use crate::parts::{BLOCK, CONTENT, Listed, encode, lay, register, span};
use crate::tally::Tally;
use crate::words::{at, put, word};
use second::image;
use second::state::{Lengths, Partition, Posting, State, Windows};

/// A call that both engines must do alike.
fn make(pair: &mut Pair, call: Call) {
    let answer = pair.make(&call, &mut Tally::default());
    assert!(answer.is_ok(), "{call:?}: {answer:?}");
}

/// A closed window with these counts.
fn window(pair: &mut Pair, counts: &[(&[u8], usize)]) {
    make(pair, Call::Open);
    for &(identifier, times) in counts {
        for _ in 0..times {
            make(pair, Call::Event(identifier.to_vec()));
        }
    }
    make(pair, Call::Close);
}

/// Quotient, remainder and windows, or a refusal.
fn mean(pair: &mut Pair, identifier: &[u8]) -> Result<[u64; 3], u32> {
    let answer = pair.make(&Call::Mean(identifier.to_vec()), &mut Tally::default());
    answer.map(|[quotient, remainder, windows, ..]| [quotient, remainder, windows])
}

#[test]
fn counts_of_closed_windows_have_a_mean() {
    let mut pair = Pair::start(16, 4, &mut Tally::default());
    assert_eq!(mean(&mut pair, b"LUCKY"), Err(UNCOUNTED));
    window(&mut pair, &[(b"LUCKY", 3), (b"TILT", 1)]);
    assert_eq!(mean(&mut pair, b"LUCKY"), Ok([3, 0, 1]));
    window(&mut pair, &[(b"DOOR", 1)]);
    window(&mut pair, &[(b"LUCKY", 1)]);
    window(&mut pair, &[(b"LUCKY", 4), (b"DOOR", 2)]);
    for _ in 0..2 {
        // 8 in three windows, 3 in two, 1 in one.
        assert_eq!(mean(&mut pair, b"LUCKY"), Ok([2, 2, 3]));
        assert_eq!(mean(&mut pair, b"DOOR"), Ok([1, 1, 2]));
        assert_eq!(mean(&mut pair, b"TILT"), Ok([1, 0, 1]));
        assert_eq!(mean(&mut pair, b"BELL"), Err(UNCOUNTED));
        make(&mut pair, Call::Flush);
    }
    make(&mut pair, Call::Remove(1));
    for _ in 0..2 {
        assert_eq!(mean(&mut pair, b"LUCKY"), Ok([2, 1, 2]));
        // The only window is removed.
        assert_eq!(mean(&mut pair, b"TILT"), Err(UNCOUNTED));
        make(&mut pair, Call::Flush);
    }
    make(&mut pair, Call::Open);
    make(&mut pair, Call::Event(b"TILT".to_vec()));
    // The open window is none.
    assert_eq!(mean(&mut pair, b"TILT"), Err(UNCOUNTED));
    make(&mut pair, Call::Close);
    assert_eq!(mean(&mut pair, b"TILT"), Ok([1, 0, 1]));
    // What is no identifier is told before that it has no mean.
    assert_eq!(mean(&mut pair, b""), Err(4));
    assert_eq!(mean(&mut pair, &[b'X'; 65]), Err(4));
    assert_eq!(mean(&mut pair, &[b'X'; 64]), Err(UNCOUNTED));
}

/// A foreign probe with partitions of lists by falling window, of five identifiers, all windows closed.
pub fn probe(partitions: &[&[(u16, Vec<(u16, i16)>)]]) -> Probe {
    let blocks = 160;
    let mut card = vec![255; blocks * BLOCK];
    let mut state = State {
        lengths: Lengths {
            card: card.len() as u32,
            register: 6 * 65,
        },
        windows: Windows {
            last: 65_535,
            live: 65_535,
            ..Windows::default()
        },
        ..State::default()
    };
    let mut next = 0;
    for (place, lists) in partitions.iter().enumerate() {
        let listed = |(id, list): &(u16, Vec<(u16, i16)>)| {
            let postings = list.iter().map(|&(window, count)| Posting {
                id: *id,
                window,
                count,
            });
            (*id, postings.collect())
        };
        let lists: Vec<Listed> = lists.iter().map(listed).collect();
        let content = encode(0, &lists);
        let [lowest, highest] = span(&lists);
        let taken: Vec<usize> = (next..next + content.len().div_ceil(CONTENT)).collect();
        lay(&mut card, &taken, &content);
        state.partitions.records[place] = Partition {
            first: next as u16,
            level: 0,
            length: content.len() as u32,
            lowest,
            highest,
        };
        state.partitions.used += 1;
        next += taken.len();
    }
    Probe {
        image: image::write(&state),
        card,
        register: register(6, 5),
    }
}

/// A sum below 0 takes nothing away, and its window is none of the identifier's.
#[test]
fn sums_below_0_add_nothing() {
    let mut pair = Pair::of(probe(&[
        &[(0, vec![(9, -3), (5, 3), (4, 6)]), (1, vec![(9, -1)])],
        &[(0, vec![(5, 2), (4, -7), (3, 2)])],
    ]));
    // 5 and 2 in windows 5 and 3.
    assert_eq!(mean(&mut pair, &name(0)), Ok([3, 1, 2]));
    assert_eq!(mean(&mut pair, &name(1)), Err(UNCOUNTED));
    assert_eq!(mean(&mut pair, &name(2)), Err(UNCOUNTED));
}

/// The largest count in every window there can be, and one less in one of them.
#[test]
fn the_largest_sum_has_a_mean() {
    for (count, expected) in [
        (32_767, [32_767, 0, 65_535]),
        (32_766, [32_766, 65_534, 65_535]),
    ] {
        let rest = (1..65_535).rev().map(|window| (window, 32_767));
        let list = [(65_535, count)].into_iter().chain(rest).collect();
        let mut pair = Pair::of(probe(&[&[(0, list)]]));
        assert_eq!(mean(&mut pair, &name(0)), Ok(expected));
    }
}

/// Every list, the header and the register count for whatever identifier is asked for, and before it is judged.
#[test]
fn what_is_read_is_judged_first() {
    let lists = || probe(&[&[(0, vec![(9, 5), (5, 4)]), (1, vec![(9, 1)])]]);
    assert_eq!(mean(&mut Pair::of(lists()), &name(0)), Ok([4, 1, 2]));
    // The lists begin at 56.
    let mut bad_list = lists();
    put(&mut bad_list.card, 14, 0x0009_0000);
    let mut bad_header = lists();
    let identifiers = word(&bad_header.card, 0);
    put(&mut bad_header.card, 0, identifiers + 1);
    let mut bad_register = lists();
    bad_register.register[64] = 1;
    // The highest window, in the header alone and in record and header.
    let mut at_odds = lists();
    put(&mut at_odds.card, 7, 10);
    let mut too_high = at_odds.clone();
    put(&mut too_high.image, at::record(0) + at::HIGHEST, 10);
    for bad in [bad_list, bad_header, bad_register, at_odds, too_high] {
        let mut pair = Pair::of(bad);
        for identifier in [&name(0)[..], &name(2), b"BELL", b""] {
            assert_eq!(mean(&mut pair, identifier), Err(3), "{identifier:?}");
        }
    }
    let mut short = lists();
    short.register.pop();
    assert_eq!(mean(&mut Pair::of(short), b""), Err(2));
    let mut none = lists();
    none.image.pop();
    assert_eq!(mean(&mut Pair::of(none), b""), Err(1));
}
