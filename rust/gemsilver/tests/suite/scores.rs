//! Scores counted by hand, and every weight.

use crate::engines::{Call, Probe, proved};
use crate::history::name;
use crate::means::probe;
use crate::pair::Pair;
use crate::tally::Tally;
use crate::words::{put, word};
use gemsilver::bytes::{self, HIT};
use gemsilver::{Identifier, Stretch};
use second::stretch;
use second::weights::sixteenths;

/// The bytes that both engines list for an identifier or more, in places that were filled with 7.
fn listed(probe: &Probe, numbers: impl Iterator<Item = usize>, places: usize) -> Vec<u8> {
    let all = stretch::Stretch::ALL;
    let call = Call::Query(numbers.map(name).collect(), all, vec![7; places * HIT]);
    let answer = Pair::of(probe.clone()).make(&call, &mut Tally::default());
    assert!(answer.is_ok(), "{answer:?}");
    let mut hits = call.list();
    let alone = proved(&mut probe.clone(), &call, &mut hits);
    assert_eq!(alone, answer);
    hits
}

/// Windows and scores as bytes.
fn places(hits: &[(u32, u32)]) -> Vec<u8> {
    let words = hits.iter().flat_map(|&(window, score)| [window, score]);
    words.flat_map(u32::to_le_bytes).collect()
}

/// A list of one count in each of these windows, by falling number.
fn ones(windows: impl DoubleEndedIterator<Item = u16>) -> Vec<(u16, i16)> {
    windows.rev().map(|window| (window, 1)).collect()
}

/// The largest count of five identifiers in one window of 65,535: 5 * 240 * 255. One less of one of them weighs 239. The others have
/// an identifier that the register has not.
#[test]
fn the_largest_score_is_306000() {
    for (last, score) in [(32_767, [0x50, 0xab, 4, 0]), (32_766, [0x51, 0xaa, 4, 0])] {
        let counts = [32_767, 32_767, 32_767, 32_767, last];
        let lists = (0..).zip(counts.map(|count| vec![(9, count)]));
        let probe = probe(&[&lists.collect::<Vec<_>>(), &[(1_023, ones(1..=65_535))]]);
        let hits = listed(&probe, 0..5, 2);
        assert_eq!(hits[..4], [9, 0, 0, 0]);
        assert_eq!(hits[4..HIT], score);
        assert_eq!(hits[HIT..], [7; HIT]);
    }
    assert_eq!(0x4ab50, 5 * 240 * 255);
    assert_eq!(0x4aa51, 4 * 240 * 255 + 239 * 255);
}

/// Two windows of 16 weigh 64 - 16. Counts 8 and 7 weigh 50 and 48; counts 32 and 31 both 80, so that the later window comes first.
#[test]
fn neighbouring_counts_are_told_apart() {
    let probe = probe(&[
        &[(0, vec![(2, 7), (1, 8)]), (1, vec![(2, 31), (1, 32)])],
        &[(2, ones(1..=16))],
    ]);
    let apart = places(&[(1, 50 * 48), (2, 48 * 48)]);
    assert_eq!(listed(&probe, 0..1, 2), apart);
    let equal = places(&[(2, 80 * 48), (1, 80 * 48)]);
    assert_eq!(listed(&probe, 1..2, 2), equal);
}

/// Rarity is a difference of two logarithms, each rounded down.
#[test]
fn rarity_is_a_difference() {
    // 37 - 25; the logarithm of 5/3 has between 11 and 12 sixteenths, and that of 14/10, 60 - 53, between 7 and 8.
    for (live, with, weight) in [
        (5, 3, 12),
        (3, 2, 9),
        (14, 10, 7),
        (8, 1, 48),
        (3, 3, 0),
        (65_535, 32_767, 255 - 239),
        (65_535, 32_768, 255 - 240),
        (65_535, 62_757, 255 - 254),
        (65_535, 62_758, 0),
        (62_757, 32_768, 254 - 240),
        (65_535, 65_535, 0),
    ] {
        let probe = probe(&[&[(0, ones(1..=with)), (1, ones(1..=live))]]);
        let expected = places(&[(with.into(), 16 * weight)]);
        assert_eq!(listed(&probe, 0..1, 1), expected, "{live}, {with}");
    }
}

/// The score of one window with one identifier, as the proved engine lists it over a stretch.
fn score(probe: &Probe, stretch: Stretch) -> u32 {
    let Probe {
        image,
        card,
        register,
    } = probe;
    let mut hits = [0; HIT];
    let name = name(0);
    let identifiers = [Identifier::from(&name)];
    let found = bytes::query(image, card, register, &identifiers, stretch, &mut hits);
    assert_eq!(found.map(|found| found.hits), Ok(1));
    word(&hits, 1)
}

/// All numbers of windows, by a stretch that ends at each: the first window alone has the identifier.
#[test]
fn every_weight_of_windows_is_the_second_engines() {
    let probe = probe(&[&[(0, vec![(1, 1)]), (1, ones(1..=65_535))]]);
    // Each reads the whole card, so that a part of them has to do: the small ones, and those beside a power of 2 or a step of the weight.
    let steps = (2..=65_535).filter(|&live| sixteenths(live) > sixteenths(live - 1));
    let beside = steps.flat_map(|live| [live - 1, live]);
    for last in (1..=300).chain(beside) {
        let weight = sixteenths(last);
        let stretch = Stretch { first: 1, last };
        assert_eq!(score(&probe, stretch), 16 * weight, "{last}");
    }
}

/// All counts, one window of two.
#[test]
fn every_weight_of_a_count_is_the_second_engines() {
    let mut probe = probe(&[&[(0, vec![(9, 1)]), (1, vec![(8, 1)])]]);
    // The posting lies behind eight words of a header and three of each entry.
    for count in 1..=32_767 {
        put(&mut probe.card, 14, 9 << 16 | count);
        let weight = sixteenths(count as u16 + 1);
        assert_eq!(score(&probe, Stretch::ALL), 16 * weight, "{count}");
    }
}
