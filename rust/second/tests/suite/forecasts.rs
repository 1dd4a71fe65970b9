//! What a planned session would come to, before it is begun.

use crate::calls::{Call, forecast, forecast_of, outcome};
use crate::history::{Odds, Plan, act, name};
use crate::made::{Told, told};
use crate::malformed::{card_of, part};
use crate::planned::{Windows, any_windows, laid_out};
use crate::rng::Rng;
use crate::tally::Tally;
use crate::twin::Twin;
use second::commands::Probe;
use second::refusal::Refusal;
use second::state::{Lengths, Partition, Posting, State, Windows as Numbers};
use std::collections::BTreeSet;

/// A window of these identifiers.
fn window(identifiers: &[&[u8]]) -> Vec<Vec<u8>> {
    identifiers.iter().map(|id| id.to_vec()).collect()
}

/// A window of so many names, from one on.
fn row(first: usize, count: usize) -> Vec<Vec<u8>> {
    (first..first + count).map(name).collect()
}

/// The same identifier so many times.
fn repeated(identifier: &[u8], times: usize) -> Vec<Vec<u8>> {
    vec![identifier.to_vec(); times]
}

/// Makes the calls of a plan that does not stop.
fn follow(twin: &mut Twin, windows: &Windows) {
    for identifiers in windows {
        twin.open().unwrap();
        for identifier in identifiers {
            twin.event(identifier).unwrap();
        }
        twin.close().unwrap();
    }
}

/// What the second engine alone tells of a plan, held against its calls.
fn ask(probe: &Probe, windows: &[Vec<Vec<u8>>]) -> Result<Told, u8> {
    let (plan, counts) = laid_out(windows);
    ask_bytes(probe, &plan, &counts)
}

fn ask_bytes(probe: &Probe, plan: &[u8], counts: &[u32]) -> Result<Told, u8> {
    let answer = forecast_of(probe, plan, counts);
    answer.map(told).map_err(Refusal::number)
}

#[test]
fn an_empty_plan_tells_what_is_there() {
    let mut twin = Twin::new(16, 4);
    assert_eq!(twin.forecast(&vec![]), (0, 0, 0, None));
    follow(&mut twin, &vec![window(&[b"A", b"B"])]);
    assert_eq!(twin.forecast(&vec![]), (0, 0, 2, None));
    twin.flush().unwrap();
    assert_eq!(twin.forecast(&vec![]), (0, 1, 2, None));
    // No window is opened, so that the open one does not matter.
    twin.open().unwrap();
    assert_eq!(twin.forecast(&vec![]), (0, 1, 2, None));
}

/// Two windows of 64 identifiers fill the buffer; the third flushes at its first event.
#[test]
fn a_plan_that_fits_is_counted_to_its_end() {
    let mut twin = Twin::new(16, 70);
    let full = vec![row(0, 64), row(0, 64)];
    assert_eq!(twin.forecast(&full), (0, 0, 64, None));
    let third = [&full[..], &[row(66, 1)]].concat();
    assert_eq!(twin.forecast(&third), (1, 1, 65, None));
    follow(&mut twin, &full);
    // A pair is new to each window, though its identifier is not new.
    assert_eq!(twin.forecast(&vec![row(0, 1)]), (1, 1, 64, None));
    assert_eq!(twin.forecast(&vec![row(0, 64); 3]), (2, 2, 64, None));
    let known = twin.forecast(&vec![repeated(&name(3), 500)]);
    assert_eq!(known, (1, 1, 64, None));
}

/// In the plan or in the register: an identifier takes one entry.
#[test]
fn an_identifier_takes_one_entry() {
    let mut twin = Twin::new(16, 3);
    let plan = vec![window(&[b"A", b"A", b"B"]), window(&[b"B", b"A"])];
    assert_eq!(twin.forecast(&plan), (0, 0, 2, None));
    follow(&mut twin, &vec![window(&[b"B"])]);
    assert_eq!(twin.forecast(&plan), (0, 0, 2, None));
    // Another one of the same beginning takes the last entry.
    let plan = vec![window(&[b"A", b"A\0", b"A\0", b"A"])];
    assert_eq!(twin.forecast(&plan), (0, 0, 3, None));
}

#[test]
fn a_window_without_events_gives_its_number_back() {
    let mut twin = Twin::new(16, 2);
    assert_eq!(twin.forecast(&vec![vec![]; 70_000]), (0, 0, 0, None));
    twin.open().unwrap();
    twin.close().unwrap();
    let plan = vec![vec![], window(&[b"A"]), vec![], vec![]];
    assert_eq!(twin.forecast(&plan), (0, 0, 1, None));
}

/// A state with so many numbers given and no window open.
fn numbered(last: u16) -> Probe {
    let mut probe = card_of(Vec::new());
    probe.state.buffer = Default::default();
    probe.state.listed = Default::default();
    probe.state.windows = Numbers {
        last,
        ..Numbers::default()
    };
    probe
}

#[test]
fn numbers_may_be_used_up() {
    let none: Vec<Vec<u8>> = vec![];
    let some = window(&[b"A"]);
    let probe = numbered(65_535);
    assert_eq!(ask(&probe, &[]), Ok((0, 0, 4, None)));
    for plan in [vec![none.clone()], vec![some.clone()]] {
        assert_eq!(ask(&probe, &plan), Ok((0, 0, 4, Some((1, 0, 6)))));
    }
    // The last number comes back while its windows have no events.
    let probe = numbered(65_534);
    assert_eq!(ask(&probe, &vec![none.clone(); 9]), Ok((0, 0, 4, None)));
    let plan = [none.clone(), window(&[b"A", b"X", b"A"]), none];
    assert_eq!(ask(&probe, &plan), Ok((0, 0, 5, Some((3, 0, 6)))));
    // The plan itself gives the last 35.
    let stop = Some((36, 0, 6));
    assert_eq!(ask(&numbered(65_500), &vec![some; 40]), Ok((0, 0, 4, stop)));
}

#[test]
fn an_open_window_stops_the_plan_at_its_first_open() {
    let mut twin = Twin::new(16, 4);
    twin.open().unwrap();
    let stop = Some((1, 0, 5));
    for plan in [
        vec![vec![]],
        vec![window(&[b"A"])],
        vec![window(&[b""]), window(&[b"A"])],
    ] {
        assert_eq!(twin.forecast(&plan), (0, 0, 0, stop));
    }
    // 5 before 6: the open window has the last number.
    twin.event(b"A").unwrap();
    assert_eq!(twin.forecast(&vec![vec![]]), (0, 0, 1, stop));
    let mut probe = card_of(Vec::new());
    probe.state.windows.last = 65_535;
    probe.state.windows.open = 65_535;
    probe.state.buffer = Default::default();
    assert_eq!(ask(&probe, &[vec![]]), Ok((0, 0, 4, stop)));
}

#[test]
fn what_is_no_identifier_is_told_at_its_place() {
    let mut twin = Twin::new(16, 4);
    for bad in [&[b'X'; 0][..], &[b'X'; 65], &[b'X'; 66], &[b'X'; 255]] {
        for event in 1..=3 {
            let mut second = repeated(b"B", 3);
            second[event - 1] = bad.to_vec();
            let plan = vec![window(&[b"A"]), second, window(&[b"C"])];
            // B is counted only where it comes before.
            let entries = if event == 1 { 1 } else { 2 };
            let expected = (0, 0, entries, Some((2, event, 4)));
            assert_eq!(twin.forecast(&plan), expected, "{} bytes", bad.len());
        }
    }
    let longest = vec![window(&[&[b'X'; 64], &[b'X'; 1]])];
    assert_eq!(twin.forecast(&longest), (0, 0, 2, None));
}

#[test]
fn a_window_of_a_plan_has_at_most_32767_events() {
    let mut twin = Twin::new(16, 2);
    let most = repeated(b"A", 32_767);
    let plan = vec![most.clone(), window(&[b"B"])];
    assert_eq!(twin.forecast(&plan), (0, 0, 2, None));
    for more in [&b"A"[..], b"B"] {
        let over = [most.clone(), window(&[more])].concat();
        let stop = Some((2, 32_768, 6));
        assert_eq!(twin.forecast(&vec![vec![], over]), (0, 0, 1, stop));
    }
    // 4 before 6.
    let over = [most, window(&[b"", b"A"])].concat();
    let stop = Some((1, 32_768, 4));
    assert_eq!(twin.forecast(&vec![over]), (0, 0, 1, stop));
}

#[test]
fn a_full_register_refuses_new_identifiers_alone() {
    let mut twin = Twin::new(16, 2);
    follow(&mut twin, &vec![window(&[b"A"])]);
    let plan = vec![window(&[b"A", b"B"]), window(&[b"B", b"A", b"C", b"A"])];
    assert_eq!(twin.forecast(&plan), (0, 0, 2, Some((2, 3, 8))));
    // What a refused event would enter is not there for a later one.
    let plan = vec![window(&[b"C", b"D"])];
    assert_eq!(twin.forecast(&plan), (0, 0, 2, Some((1, 2, 8))));
}

#[test]
fn a_window_of_a_plan_has_at_most_64_identifiers() {
    let mut twin = Twin::new(16, 65);
    let full = row(0, 64);
    let plan = vec![[full.clone(), row(0, 64)].concat(), row(64, 1)];
    assert_eq!(twin.forecast(&plan), (0, 0, 65, None));
    let over = vec![full.clone(), [full.clone(), row(64, 1)].concat()];
    assert_eq!(twin.forecast(&over), (0, 0, 64, Some((2, 65, 9))));
    // 8 before 9: the register has 65 entries.
    let last = vec![row(64, 1), [full, row(65, 1)].concat()];
    assert_eq!(twin.forecast(&last), (0, 0, 65, Some((2, 65, 8))));
}

/// Windows of 64 identifiers each.
fn full_windows(count: usize) -> Windows {
    vec![row(0, 64); count]
}

/// Each two windows fill the buffer, which the next one flushes at its first event.
#[test]
fn sixteen_flushes_fill_level_0() {
    let mut twin = Twin::new(64, 64);
    assert_eq!(twin.forecast(&full_windows(34)), (16, 16, 64, None));
    let stop = Some((35, 1, 10));
    assert_eq!(twin.forecast(&full_windows(35)), (16, 16, 64, stop));
    follow(&mut twin, &full_windows(20));
    assert_eq!(twin.forecast(&full_windows(14)), (7, 16, 64, None));
    let stop = Some((15, 1, 10));
    assert_eq!(twin.forecast(&full_windows(99)), (7, 16, 64, stop));
    // A merge in progress makes no room before it ends.
    twin.step().unwrap();
    assert!(twin.state.merge.steps > 0);
    assert_eq!(twin.forecast(&full_windows(99)), (7, 16, 64, stop));
    while twin.state.merge.steps > 0 {
        twin.step().unwrap();
    }
    let blocks = twin.ledger.account.finished_blocks();
    let stop = Some((31, 1, 10));
    let told = twin.forecast(&full_windows(99));
    assert_eq!(told, (15, blocks + 15, 64, stop));
}

#[test]
fn half_of_the_card_is_kept_for_merges() {
    for (blocks, flushes) in [(4, 2), (5, 2), (6, 3), (7, 3), (8, 4), (32, 16)] {
        let mut twin = Twin::new(blocks, 64);
        let windows = 2 * flushes + 2;
        let fits = twin.forecast(&full_windows(windows));
        assert_eq!(fits, (flushes, flushes, 64, None), "{blocks}");
        // 10 before 11, where both would be told.
        let number = if blocks == 32 { 10 } else { 11 };
        let stop = Some((windows + 1, 1, number));
        let over = twin.forecast(&full_windows(windows + 2));
        assert_eq!(over, (flushes, flushes, 64, stop), "{blocks}");
    }
}

/// 4, 6, 8 and 9 come before what a flush is refused with.
#[test]
fn a_flush_is_tried_last() {
    let mut twin = Twin::new(4, 65);
    let mut plan = full_windows(6);
    let stopped = |twin: &mut Twin, plan: &Windows| twin.forecast(plan).3;
    for (more, number) in [
        (window(&[b""]), 4),
        (row(0, 1), 11),
        (row(64, 1), 11),
        (vec![vec![b'X'; 65]], 4),
    ] {
        plan.push(more);
        assert_eq!(stopped(&mut twin, &plan), Some((7, 1, number)));
        plan.pop();
    }
    // The sixth window fills the buffer, and then has a 65th identifier.
    plan[5].extend(row(64, 1));
    assert_eq!(stopped(&mut twin, &plan), Some((6, 65, 9)));
    plan[4][0] = name(64);
    plan[5][64] = name(65);
    assert_eq!(stopped(&mut twin, &plan), Some((6, 65, 8)));
}

/// Postings that take removed counts back fill the buffer as others do.
#[test]
fn removed_counts_take_room_in_the_buffer() {
    let mut twin = Twin::new(16, 64);
    follow(&mut twin, &full_windows(2));
    twin.flush().unwrap();
    twin.remove(1).unwrap();
    twin.remove(2).unwrap();
    assert_eq!(twin.state.buffer.used, 128);
    assert_eq!(twin.forecast(&vec![row(0, 1)]), (1, 2, 64, None));
    // With the counts still buffered they cancel, and leave all the room.
    let mut twin = Twin::new(16, 64);
    follow(&mut twin, &full_windows(1));
    twin.remove(1).unwrap();
    assert_eq!(twin.state.buffer.used, 0);
    assert_eq!(twin.forecast(&full_windows(2)), (0, 0, 64, None));
}

/// Plans that are malformed, in every way, also past the place where they would stop.
#[test]
fn a_malformed_plan_is_refused_as_a_whole() {
    let probe = numbered(7);
    let (plan, counts) = laid_out(&[window(&[b"A", b"BB"]), vec![], window(&[&[9; 64]])]);
    assert_eq!(counts, [2, 0, 1]);
    // Four identifiers are known, of five entries.
    let stop = Some((3, 1, 8));
    assert_eq!(ask_bytes(&probe, &plan, &counts), Ok((0, 0, 5, stop)));
    for length in [0, 1, 64, 65, 66, 130, 194] {
        assert_eq!(ask_bytes(&probe, &plan[..length], &counts), Err(3));
    }
    for more in [1, 64, 65] {
        let longer = [&plan[..], &vec![0; more]].concat();
        assert_eq!(ask_bytes(&probe, &longer, &counts), Err(3), "{more}");
    }
    let sums: [&[u32]; 9] = [
        &[],
        &[0],
        &[2],
        &[4],
        &[2, 0],
        &[2, 2],
        &[u32::MAX, 4],
        &[u32::MAX, u32::MAX, 5],
        &[1, 1, 1, 1],
    ];
    for counts in sums {
        assert_eq!(ask_bytes(&probe, &plan, counts), Err(3), "{counts:?}");
    }
    for counts in [&[3][..], &[1, 1, 1], &[0, 0, 3, 0]] {
        let answer = ask_bytes(&probe, &plan, counts);
        assert!(answer.is_ok_and(|told| told.3.is_some()), "{counts:?}");
    }
    assert_eq!(ask_bytes(&probe, &[], &[1]), Err(3));
    assert_eq!(ask_bytes(&probe, &[], &[0, 0]), Ok((0, 0, 4, None)));
}

/// Every byte after an identifier is zero, in the last entry too.
#[test]
fn entries_are_zero_after_their_identifiers() {
    let probe = numbered(7);
    for length in [0, 1, 2, 40, 63, 64] {
        // The first entry stops the plan already.
        let plan = vec![window(&[b"", &vec![b'X'; length]])];
        let (plan, counts) = laid_out(&plan);
        let stop = Some((1, 1, 4));
        assert_eq!(ask_bytes(&probe, &plan, &counts), Ok((0, 0, 4, stop)));
        for place in 1 + length..65 {
            let mut plan = plan.clone();
            plan[65 + place] = 1;
            let answer = ask_bytes(&probe, &plan, &counts);
            assert_eq!(answer, Err(3), "{length}: {place}");
        }
    }
    // One that is too long has nothing after it.
    for length in [65, 66, 128, 255] {
        let mut plan = vec![7; 65];
        plan[0] = length;
        let stop = Some((1, 1, 4));
        assert_eq!(ask_bytes(&probe, &plan, &[1]), Ok((0, 0, 4, stop)));
    }
}

/// 1 before 2, 2 before 3, 3 before all that is told at a place.
#[test]
fn state_and_register_come_before_the_plan() {
    let bad = Call::Forecast(vec![0; 64], vec![1]);
    let mut probe = card_of(Vec::new());
    assert_eq!(outcome(&probe, &forecast(&[vec![]])), 0);
    assert_eq!(outcome(&probe, &bad), 3);
    // No card is lent.
    probe.card.clear();
    assert_eq!(outcome(&probe, &forecast(&[vec![]])), 0);
    let name = probe.register[1];
    probe.register[65 + 1] = name;
    for call in [&bad, &forecast(&[])] {
        assert_eq!(outcome(&probe, call), 3);
    }
    probe.register.pop();
    for call in [&bad, &forecast(&[])] {
        assert_eq!(outcome(&probe, call), 2);
    }
    probe.state.taken = 16;
    for call in [&bad, &forecast(&[])] {
        assert_eq!(outcome(&probe, call), 1);
    }
}

/// Blocks are counted by the records, whatever the card holds; a record of length
/// 0 has none.
#[test]
fn blocks_are_reckoned_by_the_records() {
    let parts = (1..=7).map(|window| part(0, vec![(0, window, 1)]));
    let mut probe = card_of(parts.collect());
    probe.state.windows.open = 0;
    probe.state.windows.events = 0;
    probe.state.listed = Default::default();
    // One is buffered, and 127 make it full.
    let plan = vec![window(&[b"A"]); 128];
    let cases = [
        (0, (1, 7, 4, None)),
        (1, (1, 8, 4, None)),
        (4_092, (1, 8, 4, None)),
        (4_093, (0, 8, 4, Some((128, 1, 11)))),
        (16 * 4_092, (0, 22, 4, Some((128, 1, 11)))),
    ];
    for (length, expected) in cases {
        probe.state.partitions.records[0].length = length;
        assert_eq!(ask(&probe, &plan), Ok(expected), "{length}");
    }
}

const EVEN: Odds = Odds {
    turn: 12,
    event: 50,
    remove: 6,
    together: 1,
    flush: 1,
    step: 10,
    query: 0,
    odd: 0,
};

/// Histories whose forecasts meet everything: full registers, windows, levels, cards.
fn histories() -> Vec<Plan> {
    let plan = |seed, blocks, entries, names, odds| Plan {
        seed,
        blocks,
        entries,
        calls: 600,
        names,
        keep: 4,
        odds,
    };
    let jammed = Odds { step: 1, ..EVEN };
    let merging = Odds {
        flush: 12,
        step: 25,
        ..EVEN
    };
    let mut plans = Vec::new();
    for seed in 0..5 {
        plans.extend([
            plan(seed, 16, 80, 80, EVEN),
            plan(seed + 10, 64, 90, 88, merging),
            plan(seed + 20, 40, 20, 24, merging),
            plan(seed + 30, 4 + seed as usize * 16, 70, 70, jammed),
            plan(seed + 40, 48, 70, 72, jammed),
        ]);
    }
    plans
}

/// At any moment of a history the forecast is what the calls then come to.
#[test]
fn forecasts_come_true_in_histories() {
    let mut tally = Tally::default();
    let mut rng = Rng(606);
    for plan in histories() {
        let mut twin = Twin::new(plan.blocks, plan.entries);
        let mut calls = Rng(plan.seed);
        for _ in 0..plan.calls {
            act(&mut twin, &mut calls, &plan);
            // An open window stops every plan.
            if rng.one_in(if twin.ledger.open.is_some() { 50 } else { 2 }) {
                let windows = any_windows(&mut rng, plan.names);
                twin.forecast(&windows);
            }
        }
        tally.absorb(&twin.tally);
    }
    tally.print("Forecasts in histories:");
    tally.expect_done("forecast", 1_000);
    for (sight, times) in [
        ("to the end", 300),
        ("to an open refused with 5", 100),
        ("to an event refused with 4", 80),
        ("to an event refused with 8", 100),
        ("to an event refused with 9", 50),
        ("to an event refused with 10", 10),
        ("to an event refused with 11", 30),
        ("of no window", 50),
        ("of a window without events", 100),
        ("with a flush", 100),
        ("with several flushes", 50),
        ("with new identifiers", 300),
        ("past the first window", 400),
        ("during a merge", 80),
        ("beside removed counts", 300),
    ] {
        tally.expect_seen(&format!("forecasts {sight}"), times);
    }
}

/// A state that keeps the rules and that no history need have made.
fn foreign(rng: &mut Rng) -> Probe {
    let blocks = 4 + rng.below(60);
    let entries = 1 + rng.below(90);
    let last = rng.pick(&[0, 1, 9, 300, 65_530, 65_534, 65_535]);
    let mut state = State {
        lengths: Lengths {
            card: blocks as u32 * 4_096,
            register: entries as u32 * 65,
        },
        windows: Numbers {
            last,
            live: rng.below(usize::from(last) + 1) as u16,
            ..Numbers::default()
        },
        taken: rng.below(blocks) as u16,
        ..State::default()
    };
    let mut records = state.partitions.records.iter_mut();
    for (level, most) in [(5, 3), (4, 8), (3, 8), (2, 8), (1, 8), (0, 16)] {
        let count = match rng.below(4) {
            0 if level == 0 => most - rng.below(3),
            0 => rng.below(most + 1),
            _ => rng.below(2),
        };
        for record in records.by_ref().take(count) {
            *record = Partition {
                first: rng.next() as u16,
                level,
                length: rng.pick(&[0, 0, 0, 1, 4_092, 4_093, 9_000]),
                lowest: 1,
                highest: rng.pick(&[1, 65_535]),
            };
            state.partitions.used += 1;
        }
    }
    let used = rng.pick(&[0, 50, 120, 127, 128]);
    if last > 0 {
        let pairs: BTreeSet<(u16, u16)> = (0..used)
            .map(|_| {
                let below = 1 + rng.below(usize::from(last)) as u16;
                (rng.below(1_024) as u16, u16::MAX - below)
            })
            .collect();
        state.buffer.used = pairs.len() as u16;
        for (place, (id, below)) in state.buffer.postings.iter_mut().zip(pairs) {
            *place = Posting {
                id,
                window: u16::MAX - below,
                count: rng.pick(&[1, -1, 32_767, -32_767]),
            };
        }
    }
    let mut register = vec![0; entries * 65];
    for number in 0..rng.below(entries + 1) {
        let name = name(number);
        let entry = &mut register[number * 65..][..65];
        entry[0] = name.len() as u8;
        entry[1..=name.len()].copy_from_slice(&name);
    }
    Probe {
        state,
        card: Vec::new(),
        register,
    }
}

#[test]
fn forecasts_come_true_on_foreign_states() {
    let mut rng = Rng(607);
    let mut stops = Tally::default();
    for _ in 0..600 {
        let probe = foreign(&mut rng);
        let names = probe.register.len() / 65 + 1;
        let windows = any_windows(&mut rng, names);
        let told = ask(&probe, &windows).expect("the rules are kept");
        stops.record("forecast", told.3.map(|stop| stop.2));
    }
    stops.print("Where plans stop on foreign states:");
    stops.expect_done("forecast", 100);
    for (number, times) in [(4, 10), (6, 50), (8, 50), (9, 3), (10, 5), (11, 20)] {
        stops.expect_refused(number, times);
    }
}
