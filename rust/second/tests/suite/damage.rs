//! Random damage to state, card and register: a call may refuse, but never
//! panics, and a refusal changes nothing.

use crate::calls::{Call, forecast, make, outcome};
use crate::history::{Odds, Plan, act, any_list, any_stretch, name};
use crate::planned::{any_windows, damage_plan};
use crate::rng::Rng;
use crate::tally::Tally;
use crate::twin::Twin;
use second::commands::Probe;
use second::state::{Posting, State};

pub const PLAN: Plan = Plan {
    seed: 0,
    blocks: 40,
    entries: 12,
    calls: 0,
    names: 14,
    keep: 4,
    odds: Odds {
        turn: 8,
        event: 40,
        remove: 6,
        together: 0,
        flush: 12,
        step: 12,
        query: 0,
        odd: 0,
    },
};

/// Numbers near the limits, and any.
fn number(rng: &mut Rng) -> u32 {
    let near = [0, 1, 2, 8, 16, 40, 64, 128, 1023, 32_767, 65_534, 65_535];
    match rng.below(4) {
        0 => rng.next() as u32,
        1 => rng.below(50) as u32,
        2 => rng.pick(&near) + 1,
        _ => rng.pick(&near),
    }
}

fn random_call(rng: &mut Rng, last: u16) -> Call {
    match rng.below(10) {
        0 => Call::Open,
        1 | 2 => Call::Event(any_name(rng)),
        3 => Call::Close,
        4 => Call::Remove(rng.below(usize::from(last) + 2) as u32),
        5 => Call::Flush,
        6 | 7 => Call::Step,
        8 => Call::Mean(any_name(rng)),
        _ => {
            let names = (0..rng.pick(&[0, 1, 1, 2, 2, 3, 5, 6, 9])).map(|_| any_name(rng));
            let names = names.collect();
            let places = rng.pick(&[0, 1, 2, 5, 8, 16, 32, 33, 500]);
            Call::Query(names, any_stretch(rng, last), places)
        }
    }
}

pub fn any_name(rng: &mut Rng) -> Vec<u8> {
    if rng.one_in(20) {
        let length = rng.pick(&[0, 1, 64, 65, 1000]);
        return vec![rng.next() as u8; length];
    }
    name(rng.below(PLAN.names))
}

/// Another number for a field: near the old one, near a limit, or any.
fn change(field: &mut u16, rng: &mut Rng) {
    *field = match rng.below(2) {
        0 => field.wrapping_add(rng.pick(&[1, 2, 3, u16::MAX, u16::MAX - 1])),
        _ => number(rng) as u16,
    };
}

/// The same for a wide field.
fn change_wide(field: &mut u32, rng: &mut Rng) {
    *field = match rng.below(2) {
        0 => field.wrapping_add(rng.pick(&[1, 4, 16, u32::MAX, u32::MAX - 3])),
        _ => number(rng),
    };
}

/// Changes one field of the state.
fn damage_state(state: &mut State, rng: &mut Rng) {
    let posting = rng.below(usize::from(state.buffer.used).clamp(1, 127) + 1);
    let posting = &mut state.buffer.postings[posting];
    let record = rng.below(usize::from(state.partitions.used).clamp(1, 50) + 1);
    let record = &mut state.partitions.records[record];
    match rng.below(22) {
        0 => change_wide(&mut state.lengths.card, rng),
        1 => change_wide(&mut state.lengths.register, rng),
        2 => change(&mut state.windows.last, rng),
        3 | 4 => change(&mut state.windows.live, rng),
        5 => change(&mut state.windows.open, rng),
        6 => change(&mut state.windows.events, rng),
        7 => change(&mut state.listed.used, rng),
        8 => change(&mut state.listed.ids[rng.below(8)], rng),
        9 => change(&mut state.buffer.used, rng),
        10 => change(&mut posting.id, rng),
        11 => change(&mut posting.window, rng),
        12 => posting.count = number(rng) as i16,
        13 => change(&mut state.partitions.used, rng),
        14 => change(&mut record.first, rng),
        15 => change(&mut record.level, rng),
        16 => change_wide(&mut record.length, rng),
        17 => change(&mut state.taken, rng),
        18 => change(&mut state.merge.first, rng),
        19 => change(&mut record.lowest, rng),
        20 => change(&mut record.highest, rng),
        _ if rng.one_in(2) => change_wide(&mut state.merge.length, rng),
        _ => change_wide(&mut state.merge.steps, rng),
    }
}

/// Changes one byte of a used block, or spoils free blocks.
fn damage_card(probe: &mut Probe, rng: &mut Rng) {
    if rng.one_in(6) {
        let is_free = |block: &&mut [u8]| block.iter().all(|&byte| byte == 255);
        for block in probe.card.chunks_exact_mut(4096).filter(is_free) {
            block[rng.below(4096)] = rng.below(255) as u8;
        }
        return;
    }
    let records = probe.state.partitions.to_list();
    let mut firsts: Vec<u16> = records.iter().map(|record| record.first).collect();
    firsts.extend([probe.state.merge.first, 0]);
    let block = usize::from(rng.pick(&firsts)) % 40;
    let offset = match rng.below(5) {
        0 => rng.below(4096),
        1 => rng.below(32),
        2 => 4092 + rng.below(4),
        _ => rng.below(300),
    };
    let Some(byte) = probe.card.get_mut(block * 4096 + offset) else {
        return;
    };
    *byte = match rng.below(4) {
        0 => rng.next() as u8,
        1 => byte.wrapping_add(1),
        2 => byte.wrapping_sub(1),
        _ => *byte ^ (1 << rng.below(8)),
    };
}

pub fn damage(probe: &mut Probe, rng: &mut Rng) {
    match rng.below(10) {
        0..3 => damage_state(&mut probe.state, rng),
        3..8 => damage_card(probe, rng),
        8 => {
            let place = rng.below(12 * 65);
            if let Some(byte) = probe.register.get_mut(place) {
                *byte = rng.pick(&[0, 1, 2, 64, 65, 255]);
            }
        }
        _ if rng.one_in(2) => probe.card.truncate(rng.pick(&[0, 1, 4096, 39 * 4096])),
        _ => probe.register.truncate(rng.pick(&[0, 1, 65, 64 * 11])),
    }
}

/// A call that was done must leave a state that calls go on with.
fn go_on(probe: &Probe) {
    let mut probe = probe.clone();
    let next = if probe.state.windows.open == 0 {
        Call::Open
    } else {
        Call::Close
    };
    assert_ne!(make(&mut probe, &next), Err(1));
}

fn kind(call: &Call) -> &'static str {
    match call {
        Call::Open => "open",
        Call::Event(_) => "event",
        Call::Close => "close",
        Call::Remove(_) => "remove",
        Call::RemoveAll(_) => "remove_all",
        Call::Flush => "flush",
        Call::Step => "step",
        Call::Query(..) => "query",
        Call::Mean(_) => "mean",
        Call::Forecast(..) => "forecast",
    }
}

#[test]
fn damage_is_refused_or_borne() {
    let (mut tally, mut together) = (Tally::default(), Tally::default());
    let mut planned = Tally::default();
    let mut rng = Rng(2024);
    let (mut lists, mut plans) = (Rng(2025), Rng(2026));
    for _ in 0..8 {
        let mut twin = Twin::new(PLAN.blocks, PLAN.entries);
        for _ in 0..1500 {
            act(&mut twin, &mut rng, &PLAN);
            let mut probe = twin.probe();
            for _ in 0..1 + rng.below(2) {
                damage(&mut probe, &mut rng);
            }
            if lists.one_in(5) {
                let call = Call::RemoveAll(any_list(&mut lists, &twin.ledger));
                let refusal = Some(outcome(&probe, &call)).filter(|&number| number > 0);
                together.record(kind(&call), refusal);
            }
            if plans.one_in(4) {
                let call = any_plan(&mut plans);
                let refusal = Some(outcome(&probe, &call)).filter(|&number| number > 0);
                planned.record(kind(&call), refusal);
            }
            for _ in 0..2 {
                let call = random_call(&mut rng, probe.state.windows.last);
                let result = make(&mut probe, &call);
                tally.record(kind(&call), result.err());
                if result.is_ok() {
                    go_on(&probe);
                }
            }
        }
    }
    tally.print("Damaged states, cards and registers:");
    for number in [1, 2, 3, 12] {
        assert!(tally.refusals.contains_key(&number), "never met: {number}");
    }
    tally.expect_done("mean", 300);
    tally.expect_refused(15, 50);
    together.print("Lists of windows on these:");
    together.expect_done("remove_all", 300);
    for number in [1, 2, 3, 7, 16] {
        together.expect_refused(number, 50);
    }
    together.expect_refused(5, 10);
    planned.print("Plans on these:");
    planned.expect_done("forecast", 1_000);
    for number in [1, 2, 3] {
        planned.expect_refused(number, 50);
    }
}

/// A forecast of a plan, now and then of a damaged one.
fn any_plan(rng: &mut Rng) -> Call {
    let call = forecast(&any_windows(rng, PLAN.names));
    let Call::Forecast(mut plan, mut counts) = call else {
        unreachable!("a forecast was made")
    };
    if rng.one_in(3) {
        damage_plan(&mut plan, &mut counts, rng);
    }
    Call::Forecast(plan, counts)
}

/// States of random numbers altogether, on cards of any length.
#[test]
fn random_states_are_refused_or_borne() {
    let mut rng = Rng(99);
    let (mut lists, mut plans) = (Rng(100), Rng(101));
    for _ in 0..20_000 {
        let mut state = State::default();
        state.lengths.card = rng.pick(&[0, 16_384, 20_480, 16_383]);
        state.lengths.register = rng.pick(&[65, 130, 64, 0]);
        for _ in 0..rng.below(12) {
            damage_state(&mut state, &mut rng);
        }
        for place in 0..rng.below(129) {
            state.buffer.postings[place] = Posting {
                id: number(&mut rng) as u16,
                window: number(&mut rng) as u16,
                count: number(&mut rng) as i16,
            };
        }
        let card = rng.pick(&[0, 1, 16_384, 20_480]);
        let fill = rng.pick(&[0, 1, 254, 255]);
        let mut probe = Probe {
            state,
            card: vec![fill; card],
            register: vec![fill; rng.pick(&[0, 65, 130])],
        };
        let windows = (0..lists.below(4)).map(|_| number(&mut lists)).collect();
        let _ = outcome(&probe, &Call::RemoveAll(windows));
        let _ = outcome(&probe, &any_plan(&mut plans));
        let _ = make(&mut probe, &random_call(&mut rng, 9));
    }
}
