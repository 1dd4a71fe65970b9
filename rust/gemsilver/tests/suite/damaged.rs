//! Inputs that no start and no call has left: both engines refuse them alike and change nothing, or go on alike.

use crate::damage::{any_call, damage, damage_merge, spoil};
use crate::engines::{Call, Probe};
use crate::history::{History, Odds, Plan, any_list, any_plan};
use crate::pair::Pair;
use crate::parts::{BLOCK, CONTENT, Mix, advance, build, mix};
use crate::rng::Rng;
use crate::tally::Tally;
use crate::words::{at, put, word};

const PLAN: Plan = Plan {
    blocks: 40,
    entries: 12,
    calls: 1_500,
    names: 14,
    keep: 4,
    odds: Odds {
        turn: 8,
        event: 40,
        remove: 6,
        together: 0,
        flush: 12,
        step: 12,
        query: 0,
        odd: 0,
    },
};

/// Probes from histories, damaged after every call.
#[test]
fn both_engines_bear_damage_alike() {
    let mut tally = Tally::default();
    let mut on_the_way = Tally::default();
    let (mut lists, mut plans) = (Rng(500), Rng(502));
    for (seed, blocks) in [40, 24, 64, 36, 28, 40, 48, 32].into_iter().enumerate() {
        let plan = Plan { blocks, ..PLAN };
        let mut history = History::new(&plan, seed as u64, &mut on_the_way);
        let mut rng = Rng(seed as u64 + 100);
        for _ in 0..plan.calls {
            history.act(&plan, &mut on_the_way);
            let mut probe = history.pair.probe().clone();
            let last = word(&probe.image, at::LAST) as usize;
            for _ in 0..1 + rng.below(2) {
                damage(&mut probe, &mut rng);
            }
            if lists.one_in(3) {
                let call = history.any_list(&mut lists);
                let _ = Pair::of(probe.clone()).make(&call, &mut tally);
            }
            if plans.one_in(6) {
                let call = any_plan(&mut plans, plan.names);
                let _ = Pair::of(probe.clone()).make(&call, &mut tally);
            }
            let mut pair = Pair::of(probe);
            for _ in 0..3 {
                let call = any_call(&mut rng, plan.names, last);
                let _ = pair.make(&call, &mut tally);
            }
        }
    }
    tally.print("damaged");
    expect_all(&tally, 10);
    tally.expect_stretches(20);
    tally.expect_left_out(100);
}

/// Probes that keep the rules but were never made by calls, and such probes damaged.
#[test]
fn both_engines_take_foreign_probes_alike() {
    let mut tally = Tally::default();
    let mut rng = Rng(2_024);
    let (mut lists, mut plans) = (Rng(501), Rng(503));
    for _ in 0..9_500 {
        let mix = mix(&mut rng);
        let mut probe = build(&mix, &mut rng);
        if rng.one_in(4) {
            spoil(&mut probe.card, &mut rng);
        }
        if rng.one_in(2) {
            advance(&mut probe, rng.pick(&[1, 1, 2, 3, 10]));
        }
        for _ in 0..rng.pick(&[0, 0, 0, 1, 1, 2]) {
            damage(&mut probe, &mut rng);
        }
        if lists.one_in(3) {
            let windows = (1..=u32::from(mix.windows.min(8))).collect();
            let call = Call::RemoveAll(any_list(&mut lists, windows));
            let _ = Pair::of(probe.clone()).make(&call, &mut tally);
        }
        if plans.one_in(6) {
            let call = any_plan(&mut plans, mix.entries + 2);
            let _ = Pair::of(probe.clone()).make(&call, &mut tally);
        }
        let mut pair = Pair::of(probe);
        for _ in 0..4 {
            let call = any_call(&mut rng, mix.entries + 2, mix.windows.into());
            let _ = pair.make(&call, &mut tally);
        }
    }
    tally.print("foreign");
    expect_all(&tally, 20);
    tally.expect_stretches(20);
    tally.expect("open", &[6], 20);
    tally.expect("event", &[6, 9, 10, 11, 12], 20);
    tally.expect("flush", &[10, 11, 12], 20);
    tally.expect("remove", &[10, 11, 12], 10);
    tally.expect_left_out(40);
    tally.expect("remove_all", &[10, 11, 12], 3);
}

/// Partitions to be merged into one of at most two blocks, some beside an older one and a newer one.
fn to_merge(rng: &mut Rng) -> Mix {
    let level = rng.below(6) as u16;
    let mut levels = vec![level; if level == 5 { 3 } else { 8 }];
    if level < 5 && rng.one_in(2) {
        levels.insert(0, level + 1);
    }
    if level == 0 && rng.one_in(2) {
        levels.push(0);
    }
    let (windows, spread) = rng.pick(&[(5, 2), (20, 3), (100, 4), (100, 1), (300, 1)]);
    Mix {
        blocks: 48,
        entries: 4,
        ids: (0..1 + rng.below(6) as u16).collect(),
        windows,
        apart: 0,
        spread,
        sizes: vec![1, 1, 2, 3_000],
        levels,
        hollow: usize::MAX,
        cancels: rng.one_in(5),
    }
}

/// A merge in progress with nothing left to take: the last step's postings are there, its header and entries are not. `None`
/// where nothing is written.
fn all_taken(probe: &Probe) -> Option<Probe> {
    let mut taken = probe.clone();
    let mut after = probe.clone();
    while word(&after.image, at::STEPS) > 0 {
        let steps = word(&after.image, at::STEPS) + 1;
        put(&mut taken.image, at::STEPS, steps);
        advance(&mut after, 1);
    }
    let first = word(&probe.image, at::MERGE) as usize;
    let head = after.card.get(first * BLOCK..first * BLOCK + 16)?;
    let head = word(head, 3) as usize;
    let mut block = first;
    while let Some(bytes) = taken.card.get_mut(block * BLOCK..(block + 1) * BLOCK) {
        bytes.copy_from_slice(&after.card[block * BLOCK..][..BLOCK]);
        block = word(bytes, CONTENT / 4) as usize;
    }
    taken.card[first * BLOCK..][..head.min(CONTENT)].fill(255);
    Some(taken)
}

/// Merges in progress, with something changed in their record, their output or their inputs.
#[test]
fn both_engines_judge_a_merge_in_progress_alike() {
    let mut tally = Tally::default();
    let mut rng = Rng(31);
    for _ in 0..400 {
        let mut probe = build(&to_merge(&mut rng), &mut rng);
        advance(&mut probe, rng.pick(&[1, 1, 2, 3, 10, 20]));
        if word(&probe.image, at::STEPS) == 0 {
            continue;
        }
        if rng.one_in(4)
            && let Some(taken) = all_taken(&probe)
        {
            assert_eq!(Pair::of(taken).make(&Call::Step, &mut tally), Err(3));
        }
        for round in 0..12 {
            let mut damaged = probe.clone();
            if round > 1 {
                damage_merge(&mut damaged, &mut rng);
            }
            let mut pair = Pair::of(damaged);
            for _ in 0..1 + rng.below(2) {
                let _ = pair.make(&Call::Step, &mut tally);
            }
        }
    }
    tally.print("merges in progress");
    tally.expect("step", &[0, 3], 500);
}

/// Every refusal that a call can give to damaged inputs.
fn expect_all(tally: &Tally, times: usize) {
    tally.expect("open", &[0, 1, 5], times);
    tally.expect("close", &[0, 1, 5], times);
    tally.expect("event", &[0, 1, 2, 3, 4, 5, 8], times);
    tally.expect("flush", &[0, 1, 2, 11, 12], times);
    tally.expect("remove", &[0, 1, 2, 3, 5, 7], times);
    tally.expect("step", &[0, 1, 2, 3, 12, 13], times);
    tally.expect("query", &[0, 1, 2, 3, 4, 14, 17], times);
    tally.expect("mean", &[0, 1, 2, 3, 4, 15], times);
    tally.expect("remove_all", &[0, 1, 2, 3, 5, 7, 16], times);
    tally.expect("forecast", &[0, 1, 2, 3], times);
}
