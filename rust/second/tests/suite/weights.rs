//! The weights of counts and of rarity, the engine's and the ledger's: known
//! ones, and all of them against the definition.

use crate::rng::Rng;
use second::ledger;
use second::weights::{count_weight, rarity_weight, sixteenths};

/// A number of 33 bytes, the highest first, so that numbers compare as arrays.
type Number = [u8; 33];

fn two_to(exponent: u32) -> Number {
    let mut number = [0; 33];
    number[32 - exponent as usize / 8] = 1 << (exponent % 8);
    number
}

fn sixteenth_power(base: u32) -> Number {
    let mut number = two_to(0);
    for _ in 0..16 {
        let mut carry = 0;
        for byte in number.iter_mut().rev() {
            carry += u32::from(*byte) * base;
            *byte = carry as u8;
            carry >>= 8;
        }
        assert_eq!(carry, 0);
    }
    number
}

/// Whether this is the largest a with 2^a at most number^16.
fn is_sixteenths(a: u32, number: u32) -> bool {
    let power = sixteenth_power(number);
    two_to(a) <= power && power < two_to(a + 1)
}

/// The smallest number with number^16 at least 2^a, for each a from 0 to 255.
fn thresholds() -> Vec<u32> {
    let mut number = 1;
    let mut threshold = |a| {
        while sixteenth_power(number) < two_to(a) {
            number += 1;
        }
        number
    };
    (0..=255).map(&mut threshold).collect()
}

#[test]
fn sixteenths_of_every_number_are_exact() {
    for number in 1..=65_535 {
        let (engine, ledger) = (sixteenths(number as u16), ledger::sixteenths(number));
        assert!(is_sixteenths(engine, number), "{number}: {engine}");
        assert!(is_sixteenths(ledger, number), "{number}: {ledger}");
    }
}

/// They reach a where the powers do: they are as many as the thresholds from 1 on
/// that are reached.
#[test]
fn sixteenths_step_at_the_thresholds() {
    let thresholds = thresholds();
    assert_eq!(thresholds.len(), 256);
    // 2^16 is 2^16, and 3^16 is above 2^25; 65,536^16 would be 2^256.
    let some = [0, 1, 16, 17, 25, 26, 240].map(|a| thresholds[a]);
    assert_eq!(some, [1, 2, 2, 3, 3, 4, 32_768]);
    assert!(thresholds[255] <= 65_535);
    let mut reached = 0;
    for number in 1..=65_535 {
        while reached < 255 && thresholds[reached + 1] <= number {
            reached += 1;
        }
        assert_eq!(sixteenths(number as u16), reached as u32, "{number}");
        assert_eq!(ledger::sixteenths(number), reached as u32, "{number}");
    }
    assert_eq!(reached, 255);
}

#[test]
fn weights_of_counts() {
    let cases = [(0, 0), (1, 16), (2, 25), (3, 32), (7, 48), (32_767, 240)];
    for (count, weight) in cases {
        assert_eq!(count_weight(count), weight);
        assert_eq!(ledger::count_weight(count.into()), weight);
    }
    for count in 0..=32_767 {
        let weight = count_weight(count);
        assert!(is_sixteenths(weight, u32::from(count) + 1), "{count}");
        assert_eq!(ledger::count_weight(count.into()), weight, "{count}");
    }
}

#[test]
fn weights_of_rarity() {
    let cases = [
        (8, 1, 48),
        (3, 2, 9),
        (5, 3, 12),
        (3, 3, 0),
        (65_535, 1, 255),
        (65_535, 32_768, 15),
        (65_535, 65_534, 0),
        (5, 0, 0),
        (0, 0, 0),
        (3, 4, 0),
        (1, 65_535, 0),
    ];
    for (live, with, weight) in cases {
        assert_eq!(rarity_weight(live, with), weight, "{live}, {with}");
        let ledger = ledger::rarity_weight(live.into(), with.into());
        assert_eq!(ledger, weight, "{live}, {with}");
    }
    let thresholds = thresholds();
    let reached = |number| thresholds[1..].partition_point(|&least| least <= number) as u32;
    let mut rng = Rng(1);
    for _ in 0..100_000 {
        let live = 1 + rng.below(65_535) as u32;
        let with = 1 + rng.below(live as usize) as u32;
        let weight = reached(live) - reached(with);
        assert_eq!(rarity_weight(live as u16, with as u16), weight);
        assert_eq!(ledger::rarity_weight(live, with), weight);
    }
}

/// The logarithm of the quotient is another: of 5/3 it has 11 sixteenths.
#[test]
fn rarity_is_a_difference() {
    let (with, live) = (3u64.pow(16), 5u64.pow(16));
    assert!(with << 11 <= live && live < with << 12);
    assert_eq!(sixteenths(5) - sixteenths(3), 12);
    assert_eq!(rarity_weight(5, 3), 12);
    assert_eq!(ledger::rarity_weight(5, 3), 12);
}
