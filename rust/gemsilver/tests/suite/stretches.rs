//! Queries over a stretch of windows, by hand and at random.

use crate::damage::{damage, damage_span};
use crate::engines::{Call, Probe, proved};
use crate::history::{any_name, name};
use crate::means::probe;
use crate::pair::Pair;
use crate::parts::{advance, build, mix};
use crate::rng::Rng;
use crate::tally::Tally;
use crate::words::{at, put, word};
use gemsilver::bytes::HIT;
use second::image;
use second::stretch::Stretch;

/// The refusal of a stretch whose first window exceeds its last.
const BAD_STRETCH: u32 = 17;

/// Window and score of each hit, and the postings taken; or a refusal.
type Found = Result<(Vec<(u32, u32)>, u64), u32>;

/// What both engines answer to a query of identifiers over a stretch.
fn ask(pair: &mut Pair, names: &[&[u8]], first: u16, last: u16) -> Found {
    let names = names.iter().map(|name| name.to_vec()).collect();
    let call = Call::Query(names, Stretch { first, last }, vec![7; 8 * HIT]);
    let answer = pair.make(&call, &mut Tally::default());
    let mut hits = call.list();
    assert_eq!(proved(&mut pair.probe().clone(), &call, &mut hits), answer);
    let [listed, taken, ..] = answer?;
    let hit = |place: usize| (word(&hits, 2 * place), word(&hits, 2 * place + 1));
    Ok(((0..listed as usize).map(hit).collect(), taken))
}

/// A call that both engines must do alike.
fn make(pair: &mut Pair, call: Call) {
    let answer = pair.make(&call, &mut Tally::default());
    assert!(answer.is_ok(), "{call:?}: {answer:?}");
}

/// Lowest and highest window of each partition's record.
fn spans(probe: &Probe) -> Vec<(u16, u16)> {
    let state = image::read(&probe.image).expect("an image");
    let records = state.partitions.to_list();
    records.iter().map(|it| (it.lowest, it.highest)).collect()
}

/// Partitions of windows 1 and 2, of 3 and 4 and of 5; window 6 is buffered. LUCKY is in 1, 3, 4 and 6, TILT in 2, 3 and 5.
fn six_windows() -> Pair {
    let mut pair = Pair::start(16, 4, &mut Tally::default());
    let windows = ["L", "T", "LT", "L", "T", "L"];
    for (number, events) in (1..).zip(windows) {
        make(&mut pair, Call::Open);
        for event in events.bytes() {
            make(&mut pair, Call::Event(vec![event]));
        }
        make(&mut pair, Call::Close);
        if [2, 4, 5].contains(&number) {
            make(&mut pair, Call::Flush);
        }
    }
    pair
}

#[test]
fn windows_inside_are_counted_and_partitions_outside_passed_over() {
    let mut pair = six_windows();
    assert_eq!(spans(pair.probe()), [(1, 2), (3, 4), (5, 5)]);
    // Of 2 to 5 two windows of four have it, which weighs 16; of 1 to 6 four of six, 41 - 32. Window 6 is buffered and always taken up.
    let cases: [(u16, u16, &[(u32, u32)], u64); 12] = [
        (1, 65_535, &[(6, 144), (4, 144), (3, 144), (1, 144)], 4),
        (0, 6, &[(6, 144), (4, 144), (3, 144), (1, 144)], 4),
        (2, 5, &[(4, 256), (3, 256)], 4),
        (3, 4, &[(4, 0), (3, 0)], 3),
        (1, 2, &[(1, 256)], 2),
        (4, 5, &[(4, 256)], 3),
        (2, 2, &[], 2),
        (4, 4, &[(4, 0)], 3),
        (5, 5, &[], 1),
        (6, 6, &[(6, 0)], 1),
        (7, 65_535, &[], 1),
        (0, 0, &[], 1),
    ];
    for (first, last, hits, taken) in cases {
        let found = ask(&mut pair, &[b"L"], first, last);
        assert_eq!(found, Ok((hits.to_vec(), taken)), "{first} to {last}");
    }
}

#[test]
fn a_first_window_above_the_last_is_refused_after_all_else() {
    let mut pair = six_windows();
    for (first, last) in [(2, 1), (1, 0), (65_535, 65_534), (65_535, 0)] {
        assert_eq!(ask(&mut pair, &[b"L"], first, last), Err(BAD_STRETCH));
        assert_eq!(ask(&mut pair, &[], first, last), Err(14));
        assert_eq!(ask(&mut pair, &[b"L", b"L"], first, last), Err(14));
        assert_eq!(ask(&mut pair, &[b"L", b""], first, last), Err(4));
    }
}

/// The open window's postings and those of a removal belong to their partition, and a merge's windows are those of its result.
#[test]
fn records_and_headers_have_the_windows_of_the_postings() {
    let mut pair = six_windows();
    make(&mut pair, Call::Remove(1));
    make(&mut pair, Call::Open);
    make(&mut pair, Call::Event(b"T".to_vec()));
    make(&mut pair, Call::Flush);
    assert_eq!(spans(pair.probe())[3..], [(1, 7)]);
    for _ in 0..4 {
        make(&mut pair, Call::Event(b"T".to_vec()));
        make(&mut pair, Call::Flush);
    }
    make(&mut pair, Call::Step);
    // Window 1 is gone.
    assert_eq!(spans(pair.probe()), [(2, 7)]);
    let state = image::read(&pair.probe().image).expect("an image");
    let header = usize::from(state.partitions.records[0].first) * 1_024;
    let words = [6, 7].map(|field| word(&pair.probe().card, header + field));
    assert_eq!(words, [2, 7]);
    assert_eq!(ask(&mut pair, &[b"L"], 1, 1), Ok((vec![], 0)));
}

/// N is counted where counts lie, by whatever identifier, and no sum of another identifier is too large for it.
#[test]
fn live_windows_are_counted_on_the_card() {
    let others = (1, vec![(8, 32_767), (7, -32_767)]);
    let partition = [(0, vec![(9, 3)]), others.clone()];
    let mut probe = probe(&[
        &partition,
        &[others.clone()],
        &[others],
        &[(900, vec![(5, 1)])],
    ]);
    // Windows 9, 8 and 5 are live: one of three weighs 25.
    for live in [0, 2, 65_535] {
        put(&mut probe.image, at::LIVE, live);
        let mut pair = Pair::of(probe.clone());
        let lucky = name(0);
        assert_eq!(
            ask(&mut pair, &[&lucky], 1, 65_535),
            Ok((vec![(9, 32 * 25)], 1))
        );
        // With 8: one of two.
        assert_eq!(ask(&mut pair, &[&lucky], 6, 9), Ok((vec![(9, 512)], 1)));
        // The sums of the identifier itself must be counts.
        assert_eq!(ask(&mut pair, &[&name(1)], 1, 65_535), Err(3));
        assert_eq!(ask(&mut pair, &[&name(1)], 5, 5), Ok((vec![], 0)));
    }
}

/// What is wrong in a partition is met where it is read; its header is read for every query.
#[test]
fn lists_of_partitions_passed_over_are_not_read() {
    let sound = probe(&[
        &[(0, vec![(9, 5), (5, 4)])],
        &[(0, vec![(20, 1)]), (1, vec![(21, 1)])],
    ]);
    let lucky = name(0);
    // The last list of the second partition, and its highest window in record and header alike.
    let mut bad_list = sound.clone();
    put(&mut bad_list.card, 1_024 + 8 + 6 + 1, 0x0015_0000);
    let mut too_high = sound.clone();
    put(&mut too_high.card, 1_024 + 7, 22);
    put(&mut too_high.image, at::record(1) + at::HIGHEST, 22);
    for bad in [bad_list, too_high] {
        let mut pair = Pair::of(bad);
        for (first, last, is_read) in [
            (1, 65_535, true),
            (20, 20, true),
            (21, 30, true),
            (10, 19, false),
            (1, 9, false),
            (0, 0, false),
            (23, 65_535, false),
        ] {
            let found = ask(&mut pair, &[&lucky], first, last);
            assert_eq!(found.err(), is_read.then_some(3), "{first} to {last}");
        }
        // Backward: passed over where its highest is below the first or its lowest above the last.
        assert_eq!(ask(&mut pair, &[&lucky], 21, 20), Err(3));
        assert_eq!(ask(&mut pair, &[&lucky], 21, 19), Err(BAD_STRETCH));
        assert_eq!(ask(&mut pair, &[&lucky], 23, 22), Err(BAD_STRETCH));
    }
    let mut at_odds = sound.clone();
    put(&mut at_odds.card, 1_024 + 6, 0);
    let mut of_zeros = at_odds.clone();
    put(&mut of_zeros.card, 1_024 + 7, 0);
    for bad in [at_odds, of_zeros] {
        let mut pair = Pair::of(bad);
        for (first, last) in [(1, 65_535), (1, 9), (0, 0), (2, 1)] {
            assert_eq!(ask(&mut pair, &[&lucky], first, last), Err(3));
        }
        for call in [Call::Remove(9), Call::RemoveAll(vec![9]), Call::Step] {
            assert_eq!(pair.make(&call, &mut Tally::default()), Err(3));
        }
        // It reads no partition.
        make(&mut pair, Call::Flush);
    }
}

/// A merge reads the lists of its inputs and of no other partition.
#[test]
fn a_step_judges_the_windows_of_its_inputs() {
    let lists: Vec<_> = (1..=9).map(|window| [(0, vec![(window, 1)])]).collect();
    let lists: Vec<&[_]> = lists.iter().map(|list| &list[..]).collect();
    let sound = probe(&lists);
    for place in 0..9 {
        let mut bad = sound.clone();
        // Both agree on a window that no list has.
        put(&mut bad.image, at::record(place) + at::HIGHEST, 30);
        put(&mut bad.card, 1_024 * place + 7, 30);
        let expected = if place < 8 { Err(3) } else { Ok([0; 6]) };
        let mut pair = Pair::of(bad);
        let answer = pair.make(&Call::Step, &mut Tally::default());
        assert_eq!(answer, expected, "partition {place}");
        let removed = pair.make(&Call::Remove(1), &mut Tally::default());
        assert_eq!(removed, Err(3), "partition {place}");
    }
}

/// A stretch that begins and ends beside the edges of partitions.
fn edges(probe: &Probe, rng: &mut Rng) -> Stretch {
    let mut windows = vec![0, 1, 65_535];
    if let Some(state) = image::read(&probe.image) {
        let records = state.partitions.to_list().into_iter();
        let around = records.flat_map(|it| [it.lowest, it.highest]);
        windows.extend(around.flat_map(|it| [it.saturating_sub(1), it, it.saturating_add(1)]));
    }
    let (mut first, mut last) = (rng.pick(&windows), rng.pick(&windows));
    if first > last && !rng.one_in(6) {
        (first, last) = (last, first);
    }
    Stretch { first, last }
}

/// Foreign probes, with records and headers whose windows are changed, asked at the edges of their partitions.
#[test]
fn both_engines_answer_stretches_alike() {
    let mut tally = Tally::default();
    let mut rng = Rng(808);
    for _ in 0..4_000 {
        let mix = mix(&mut rng);
        let mut probe = build(&mix, &mut rng);
        if rng.one_in(3) {
            advance(&mut probe, rng.pick(&[1, 2, 10]));
        }
        if rng.one_in(3) {
            damage_span(&mut probe, &mut rng);
        }
        if rng.one_in(6) {
            damage(&mut probe, &mut rng);
        }
        let mut pair = Pair::of(probe.clone());
        for _ in 0..3 {
            let names = (0..1 + rng.below(3)).map(|_| any_name(&mut rng, mix.entries + 1));
            let names = names.collect();
            let list = vec![7; (1 + rng.below(32)) * HIT];
            let call = Call::Query(names, edges(&probe, &mut rng), list);
            let _ = pair.make(&call, &mut tally);
        }
    }
    tally.print("stretches");
    tally.expect("query", &[0, 1, 3, 4, 14, BAD_STRETCH], 50);
    tally.expect("mean", &[0, 3, 15], 50);
    tally.expect_stretches(50);
}
