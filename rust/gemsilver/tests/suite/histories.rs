//! Random histories from a start: after every call both engines have answered and left the same bytes.

use crate::history::{History, Odds, Plan};
use crate::rng::Rng;
use crate::tally::Tally;
use crate::words::{at, word};

const EVEN: Odds = Odds {
    turn: 10,
    event: 60,
    remove: 8,
    together: 0,
    flush: 4,
    step: 10,
    query: 12,
    odd: 4,
};

/// Flushes and merges often, with few postings in each.
const MERGING: Odds = Odds {
    turn: 12,
    event: 25,
    remove: 10,
    together: 0,
    flush: 20,
    step: 30,
    query: 8,
    odd: 2,
};

/// Removes as much as it counts, so that merges come out empty.
const CANCELLING: Odds = Odds {
    turn: 20,
    event: 20,
    remove: 20,
    together: 0,
    flush: 25,
    step: 15,
    query: 5,
    odd: 1,
};

/// Hardly merges, so that level 0 or the card fills up.
const JAMMED: Odds = Odds {
    step: 1,
    flush: 10,
    ..EVEN
};

/// Long windows, so that they fill up and split.
const WIDE: Odds = Odds {
    turn: 1,
    event: 150,
    remove: 8,
    together: 0,
    flush: 4,
    step: 12,
    query: 8,
    odd: 2,
};

/// Fills the buffer and lets it overflow, with merges of many postings.
const GROWING: Odds = Odds {
    turn: 5,
    event: 80,
    remove: 1,
    together: 0,
    flush: 0,
    step: 12,
    query: 4,
    odd: 1,
};

/// Many windows, of which many are removed together.
const TOGETHER: Odds = Odds {
    turn: 14,
    event: 50,
    remove: 1,
    together: 4,
    flush: 4,
    step: 10,
    query: 1,
    odd: 1,
};

/// Windows of many identifiers, so that lists of them flush on their way.
const WIDE_TOGETHER: Odds = Odds {
    turn: 4,
    event: 160,
    remove: 0,
    together: 4,
    flush: 1,
    step: 50,
    query: 1,
    odd: 1,
};

fn plan(blocks: usize, entries: usize, calls: usize, odds: Odds) -> Plan {
    Plan {
        blocks,
        entries,
        calls,
        names: entries + 2,
        keep: 8,
        odds,
    }
}

/// The histories that between them meet everything.
fn plans() -> Vec<Plan> {
    let mut plans = Vec::new();
    for blocks in [4, 8, 20, 52] {
        plans.extend([
            plan(16, 64, 4_000, EVEN),
            Plan {
                names: 30,
                ..plan(64, 32, 8_000, MERGING)
            },
            Plan {
                names: 3,
                keep: 0,
                ..plan(40, 4, 4_000, CANCELLING)
            },
            plan(blocks, 12, 2_000, JAMMED),
            Plan {
                names: 200,
                keep: 3,
                ..plan(48, 180, 6_000, WIDE)
            },
            Plan {
                names: 100,
                keep: 300,
                ..plan(64, 128, 6_000, GROWING)
            },
        ]);
    }
    plans
}

/// Histories that remove windows together.
fn plans_of_lists() -> Vec<Plan> {
    let mut plans = Vec::new();
    for blocks in [4, 8, 20, 52] {
        plans.extend([
            Plan {
                keep: 34,
                ..plan(48, 30, 4_000, TOGETHER)
            },
            Plan {
                names: 90,
                ..plan(64, 90, 8_000, WIDE_TOGETHER)
            },
            Plan {
                keep: 2,
                ..plan(
                    blocks,
                    40,
                    2_000,
                    Odds {
                        remove: 0,
                        together: 2,
                        ..JAMMED
                    },
                )
            },
        ]);
    }
    plans
}

fn run(plan: &Plan, seed: u64, tally: &mut Tally) {
    let mut history = History::new(plan, seed, tally);
    let mut plans = Rng(seed + 300);
    for _ in 0..plan.calls {
        history.act(plan, tally);
        // An open window stops every plan.
        let is_open = word(&history.pair.probe().image, at::OPEN) > 0;
        if plans.one_in(if is_open { 500 } else { 20 }) {
            history.forecast(&mut plans, plan, tally);
        }
    }
}

#[test]
fn both_engines_go_through_histories_alike() {
    let mut tally = Tally::default();
    for (seed, plan) in plans().iter().enumerate() {
        run(plan, seed as u64, &mut tally);
    }
    tally.print("histories");
    tally.expect("start", &[0], 20);
    tally.expect("open", &[0, 5], 100);
    tally.expect("close", &[0, 5], 50);
    tally.expect("event", &[0, 4, 5, 8, 9, 10, 11], 20);
    tally.expect("flush", &[0, 10, 11], 20);
    tally.expect("remove", &[0, 5, 7], 100);
    tally.expect("remove", &[10, 11], 20);
    tally.expect("step", &[0, 13], 1_000);
    tally.expect("query", &[0, 4, 14, 17], 100);
    tally.expect_stretches(50);
    tally.expect("mean", &[0, 15], 1_000);
    tally.expect("mean", &[4], 100);
    tally.expect("forecast", &[0], 500);
    tally.expect("forecast", &[3], 20);
    for (sight, times) in [
        ("that do not stop", 200),
        ("that stop at an open with 5", 100),
        ("that stop at an event with 4", 30),
        ("that stop at an event with 8", 100),
        ("that stop at an event with 9", 4),
        ("that stop at an event with 10", 3),
        ("that stop at an event with 11", 30),
        ("that stop past the first window", 80),
        ("with several flushes", 8),
        ("during a merge", 80),
    ] {
        tally.expect_plans(sight, times);
    }
    tally.expect_left_out(100);
}

#[test]
fn both_engines_remove_windows_together_alike() {
    let mut tally = Tally::default();
    for (seed, plan) in plans_of_lists().iter().enumerate() {
        run(plan, seed as u64 + 200, &mut tally);
    }
    tally.print("histories of lists");
    tally.expect("remove_all", &[0], 200);
    tally.expect("remove_all", &[5, 11], 10);
    tally.expect("remove_all", &[10], 3);
    tally.expect("remove_all", &[7, 16], 50);
    tally.expect_lists("done past the first window", 200);
    tally.expect_lists("done of 32 windows", 20);
    tally.expect_lists("done with a flush past the first window", 40);
    tally.expect_lists("done with several flushes", 20);
    tally.expect_lists("refused past the first window", 50);
    tally.expect_lists("refused with a flush", 10);
    tally.expect_lists("refused with 5 past the first window", 10);
    tally.expect_lists("refused with 7 past the first window", 30);
}

/// Short histories on cards of 4 to 64 blocks and registers of 1 to 1,024 entries.
#[test]
fn both_engines_agree_on_buffers_of_all_sizes() {
    let mut rng = Rng(77);
    let mut tally = Tally::default();
    for round in 0..80 {
        let blocks = 4 + rng.below(1 << (2 + round % 5)).min(60);
        let entries = 1 + rng.below(1 << (round % 11));
        let odds = rng.pick(&[EVEN, MERGING, JAMMED, WIDE]);
        run(&plan(blocks, entries, 250, odds), rng.next(), &mut tally);
    }
    for (blocks, entries) in [(4, 1), (4, 1_024), (64, 1), (64, 1_024)] {
        let plan = plan(blocks, entries, 1_500, WIDE);
        run(&plan, rng.next(), &mut tally);
    }
    tally.print("buffers of all sizes");
}
