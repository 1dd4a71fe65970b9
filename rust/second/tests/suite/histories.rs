//! Random histories in which the engine is held against the ledger at every call.

use crate::history::{Odds, Plan, act, name, run};
use crate::rng::Rng;
use crate::tally::Tally;
use crate::twin::Twin;

const EVEN: Odds = Odds {
    turn: 10,
    event: 60,
    remove: 8,
    together: 0,
    flush: 4,
    step: 10,
    query: 8,
    odd: 3,
};

/// Flushes and merges often, with few postings in each.
const MERGING: Odds = Odds {
    turn: 12,
    event: 25,
    remove: 10,
    together: 0,
    flush: 20,
    step: 30,
    query: 5,
    odd: 2,
};

/// Removes as much as it counts, so that merges come out empty.
const CANCELLING: Odds = Odds {
    turn: 20,
    event: 20,
    remove: 20,
    together: 0,
    flush: 25,
    step: 15,
    query: 3,
    odd: 1,
};

/// Never merges of itself, so that level 0 or the card fills up.
const JAMMED: Odds = Odds {
    step: 1,
    flush: 10,
    ..EVEN
};

/// Long windows, so that they fill up and split.
const WIDE: Odds = Odds {
    turn: 1,
    event: 150,
    remove: 8,
    together: 0,
    flush: 4,
    step: 12,
    query: 6,
    odd: 2,
};

/// Fills the buffer and lets it overflow, with merges of many postings.
const GROWING: Odds = Odds {
    turn: 5,
    event: 80,
    remove: 1,
    together: 0,
    flush: 0,
    step: 12,
    query: 2,
    odd: 1,
};

/// Many windows, of which many are removed together.
const TOGETHER: Odds = Odds {
    turn: 14,
    event: 50,
    remove: 1,
    together: 4,
    flush: 4,
    step: 10,
    query: 2,
    odd: 1,
};

/// Windows of many identifiers, so that lists of them flush on their way.
const WIDE_TOGETHER: Odds = Odds {
    turn: 4,
    event: 160,
    remove: 0,
    together: 4,
    flush: 1,
    step: 50,
    query: 1,
    odd: 1,
};

fn plan(seed: u64, blocks: usize, entries: usize, calls: usize) -> Plan {
    Plan {
        seed,
        blocks,
        entries,
        calls,
        names: entries + 2,
        keep: 8,
        odds: EVEN,
    }
}

/// The histories that between them meet everything.
fn plans() -> Vec<Plan> {
    let mut plans = Vec::new();
    for seed in 0..4 {
        plans.extend([
            plan(seed, 16, 64, 4000),
            Plan {
                names: 30,
                odds: MERGING,
                ..plan(seed + 10, 64, 32, 12_000)
            },
            Plan {
                names: 3,
                keep: 0,
                odds: CANCELLING,
                ..plan(seed + 20, 40, 4, 6000)
            },
            Plan {
                odds: JAMMED,
                ..plan(seed + 30, 4 + seed as usize * 16, 12, 2000)
            },
            Plan {
                names: 200,
                keep: 3,
                odds: WIDE,
                ..plan(seed + 40, 48, 180, 8000)
            },
            Plan {
                names: 100,
                keep: 300,
                odds: GROWING,
                ..plan(seed + 50, 96, 128, 7000)
            },
        ]);
    }
    plans
}

/// Histories that remove windows together.
fn plans_of_lists() -> Vec<Plan> {
    let mut plans = Vec::new();
    for seed in 0..4 {
        plans.extend([
            Plan {
                keep: 34,
                odds: TOGETHER,
                ..plan(seed + 70, 48, 30, 5000)
            },
            Plan {
                names: 90,
                odds: WIDE_TOGETHER,
                ..plan(seed + 80, 96, 90, 10_000)
            },
            Plan {
                odds: Odds {
                    step: 1,
                    ..TOGETHER
                },
                ..plan(seed + 90, 4 + seed as usize * 16, 12, 2000)
            },
        ]);
    }
    plans
}

/// Counts, flushes, removes and flushes again, so that whole merges cancel.
fn sweep(seed: u64) -> Twin {
    let mut twin = Twin::new(24, 32);
    let mut rng = Rng(seed);
    for _ in 0..200 {
        let window = twin.open().expect("a number is left");
        for _ in 0..1 + rng.below(20) {
            twin.event(&name(rng.below(32))).expect("there is room");
        }
        twin.close().expect("it is open");
        twin.flush().expect("there is room");
        twin.query(&[&name(0), &name(1)], 5).expect("a query");
        let counted = twin.mean(&name(0)).is_ok();
        twin.remove(window).expect("it is live");
        // No other window is live.
        assert_eq!(twin.mean(&name(0)), Err(15));
        if counted {
            twin.tally.see("removals that take the last mean");
        }
        twin.flush().expect("there is room");
        while rng.one_in(2) || twin.ledger.account.parts.len() > 10 {
            let is_due = twin.ledger.account.due_inputs().is_some();
            assert_eq!(twin.step().is_ok(), is_due);
            twin.query(&[&name(0), &name(1)], 5).expect("a query");
        }
    }
    twin
}

/// What must have been seen, or a test would be empty.
const SIGHTS: [&str; 42] = [
    "blocks taken round the end",
    "closes that bring the first mean",
    "closes that change an answer",
    "empty results after several steps",
    "flushes during a merge",
    "flushes inside events",
    "flushes inside removals",
    "flushes of an empty buffer",
    "means during a merge",
    "means of a window split over three partitions",
    "means of a window that skips a partition",
    "means of an open window in a merged partition",
    "means of an open window in a partition",
    "means of an unknown identifier",
    "means of removed counts alone",
    "means of the open window's counts alone",
    "means with a remainder",
    "merges that drop a sum of 0",
    "merges that keep a negative posting",
    "merges to level 1",
    "merges to level 2",
    "merges to level 3",
    "merges with an empty result",
    "numbers given back",
    "outputs of several blocks",
    "queries during a merge",
    "queries of a window split over three partitions",
    "queries of a window that skips a partition",
    "queries of an open window in a merged partition",
    "queries of an open window in a partition",
    "queries with equal scores above 0",
    "removals that take the last mean",
    "stretches during a merge",
    "stretches inside a partition",
    "stretches of a part with hits",
    "stretches of no window",
    "stretches of one window",
    "stretches past a partition",
    "stretches past a partition with hits",
    "stretches past all partitions",
    "stretches past some partitions",
    "stretches within a partition",
];

#[test]
fn engine_and_ledger_agree_at_every_call() {
    let mut tally = Tally::default();
    for plan in plans() {
        tally.absorb(&run(&plan).tally);
    }
    for seed in 60..64 {
        tally.absorb(&sweep(seed).tally);
    }
    tally.print("Random histories:");
    for sight in SIGHTS {
        assert!(tally.sights.contains_key(sight), "never seen: {sight}");
    }
    for number in [4, 5, 7, 8, 9, 10, 11, 13, 14, 15, 17] {
        assert!(tally.refusals.contains_key(&number), "never met: {number}");
    }
    tally.expect_done("mean", 10_000);
    tally.expect_refused(15, 1_000);
    // The room that refusal 11 keeps is enough for every merge: an output is no
    // longer than its inputs.
    assert!(!tally.refusals.contains_key(&12));
}

#[test]
fn engine_and_ledger_agree_on_lists() {
    let mut tally = Tally::default();
    for plan in plans_of_lists() {
        tally.absorb(&run(&plan).tally);
    }
    tally.print("Histories with windows removed together:");
    tally.expect_done("remove_all", 300);
    for (sight, times) in [
        ("done past the first window", 250),
        ("done after 32 windows", 30),
        ("done with a flush", 70),
        ("done with a flush past the first window", 60),
        ("done with several flushes", 25),
        ("done during a merge", 100),
        ("refused past the first window", 60),
        ("refused with a flush", 10),
        ("refused with several flushes", 4),
        ("refused with 5", 10),
        ("refused with 7", 80),
        ("refused with 10", 8),
        ("refused with 11", 20),
        ("refused with 16", 120),
    ] {
        tally.expect_seen(&format!("lists {sight}"), times);
    }
    assert!(!tally.refusals.contains_key(&12));
}

/// Short histories on cards and registers of all sizes.
#[test]
fn cards_and_registers_of_all_sizes_agree() {
    let mut rng = Rng(77);
    let mut tally = Tally::default();
    for round in 0..60 {
        let blocks = 4 + rng.below(1 << (2 + round % 7));
        let entries = 1 + rng.below(1 << (round % 11));
        let plan = Plan {
            odds: rng.pick(&[EVEN, MERGING, JAMMED]),
            ..plan(round, blocks, entries, 300)
        };
        tally.absorb(&run(&plan).tally);
    }
    for (blocks, entries) in [(4, 1), (4, 1024), (4096, 1), (4096, 1024)] {
        let plan = Plan {
            odds: MERGING,
            ..plan(9, blocks, entries, 200)
        };
        let mut twin = Twin::new(blocks, entries);
        for _ in 0..plan.calls {
            act(&mut twin, &mut rng, &plan);
        }
        tally.absorb(&twin.tally);
        let plan = Plan {
            odds: TOGETHER,
            ..plan
        };
        tally.absorb(&run(&plan).tally);
    }
    tally.print("Cards and registers of all sizes:");
}
