//! The cases that were counted by hand.

use crate::twin::Twin;

#[test]
fn identifiers_have_at_most_64_bytes() {
    let mut twin = Twin::new(4, 4);
    twin.open().unwrap();
    assert_eq!(twin.event(&[b'X'; 64]), Ok(()));
    assert_eq!(twin.event(&[b'X'; 65]), Err(4));
    assert_eq!(twin.event(b""), Err(4));
}

#[test]
fn identifiers_are_compared_at_full_length() {
    let mut twin = Twin::new(4, 4);
    twin.open().unwrap();
    twin.event(b"SIXTEEN BYTES...1").unwrap();
    twin.event(b"SIXTEEN BYTES...2").unwrap();
    twin.event(b"SIXTEEN BYTES...").unwrap();
    twin.event(b"SIXTEEN BYTES...\0").unwrap();
    assert_eq!(twin.state.listed.to_list(), [0, 1, 2, 3]);
    assert_eq!(twin.event(b"SIXTEEN BYTES...3"), Err(8));
    assert_eq!(twin.event(b"SIXTEEN BYTES...2"), Ok(()));
}

/// A closed window with these counts.
fn window(twin: &mut Twin, counts: &[(&[u8], usize)]) {
    twin.open().unwrap();
    for &(identifier, count) in counts {
        for _ in 0..count {
            twin.event(identifier).unwrap();
        }
    }
    twin.close().unwrap();
}

fn three_windows() -> Twin {
    let mut twin = Twin::new(4, 4);
    window(&mut twin, &[(b"LUCKY", 3), (b"TILT", 1)]);
    window(&mut twin, &[(b"LUCKY", 1)]);
    window(&mut twin, &[(b"TILT", 1), (b"DOOR", 1)]);
    // Counts 3 and 1 weigh 32 and 16, two windows of three 25 - 16.
    let hits = vec![(1, 32 * 9 + 16 * 9), (3, 16 * 9), (2, 16 * 9)];
    assert_eq!(twin.query(&[b"LUCKY", b"TILT"], 32), Ok((hits, 4)));
    twin
}

#[test]
fn removal_in_the_buffer() {
    let mut twin = three_windows();
    twin.remove(1).unwrap();
    // One window of two weighs 16.
    let hits = vec![(3, 16 * 16), (2, 16 * 16)];
    assert_eq!(twin.query(&[b"LUCKY", b"TILT"], 32), Ok((hits, 2)));
}

#[test]
fn removal_after_a_flush() {
    let mut twin = three_windows();
    twin.flush().unwrap();
    twin.remove(1).unwrap();
    let hits = vec![(3, 16 * 16), (2, 16 * 16)];
    assert_eq!(twin.query(&[b"LUCKY", b"TILT"], 32), Ok((hits, 6)));
}

/// Windows that a removal empties give their places to others.
#[test]
fn removal_before_the_list_is_filled() {
    let mut twin = three_windows();
    twin.flush().unwrap();
    twin.remove(1).unwrap();
    let hits = vec![(3, 16 * 16)];
    assert_eq!(twin.query(&[b"LUCKY", b"TILT"], 1), Ok((hits, 6)));
}

#[test]
fn a_window_split_by_a_flush_counts_once() {
    let mut twin = Twin::new(4, 4);
    twin.open().unwrap();
    twin.event(b"DOOR").unwrap();
    twin.event(b"DOOR").unwrap();
    twin.flush().unwrap();
    twin.event(b"DOOR").unwrap();
    twin.close().unwrap();
    assert_eq!(twin.query(&[b"DOOR"], 3), Ok((vec![(1, 0)], 2)));
    window(&mut twin, &[(b"TILT", 1)]);
    // Count 3 weighs 32; one window of two weighs 16.
    assert_eq!(twin.query(&[b"DOOR"], 3), Ok((vec![(1, 32 * 16)], 2)));
}

#[test]
fn a_card_of_four_blocks_takes_two_flushes() {
    let mut twin = Twin::new(4, 4);
    twin.open().unwrap();
    for expected in [Ok(()), Ok(()), Err(11)] {
        twin.event(b"DOOR").unwrap();
        assert_eq!(twin.flush(), expected);
    }
}

/// The scores of DOOR in so many windows of so many, with a count of 1 in each.
fn scores_of_door(live: usize, with: usize) -> Vec<u32> {
    let mut twin = Twin::new(4, 4);
    for window_number in 1..=live {
        let is_with = window_number <= with;
        let identifier: &[u8] = if is_with { b"DOOR" } else { b"TILT" };
        window(&mut twin, &[(identifier, 1)]);
    }
    let (hits, _) = twin.query(&[b"DOOR"], 32).unwrap();
    hits.into_iter().map(|(_, score)| score).collect()
}

/// Rarity is a difference of two logarithms, each rounded down: neither the
/// numbers are divided before, nor is the logarithm of their quotient rounded.
#[test]
fn rarity_is_not_rounded_early() {
    // 41 - 25, and 25 - 16; of whole quotients it would be 16 and 0.
    assert_eq!(scores_of_door(6, 3), [16 * 16; 3]);
    assert_eq!(scores_of_door(3, 2), [16 * 9; 2]);
    // 37 - 25. The logarithm of 5/3 has between 11 and 12 sixteenths.
    assert_eq!(scores_of_door(5, 3), [16 * 12; 3]);
    // 60 - 53. That of 14/10 has between 7 and 8.
    assert_eq!(scores_of_door(14, 10), [16 * 7; 10]);
}

/// A count, or a window with the identifier, more or less is enough to tell windows apart.
#[test]
fn neighbouring_counts_are_told_apart() {
    let mut twin = Twin::new(4, 4);
    window(&mut twin, &[(b"LUCKY", 8)]);
    window(&mut twin, &[(b"LUCKY", 7)]);
    window(&mut twin, &[(b"TILT", 1)]);
    // Counts 8 and 7 weigh 50 and 48, two windows of three 25 - 16.
    let hits = vec![(1, 50 * 9), (2, 48 * 9)];
    assert_eq!(twin.query(&[b"LUCKY"], 3), Ok((hits, 2)));
    // All windows but the last have DOOR, seven of eight: 48 - 44.
    let mut twin = Twin::new(4, 4);
    for _ in 0..7 {
        window(&mut twin, &[(b"DOOR", 1), (b"TILT", 1)]);
    }
    window(&mut twin, &[(b"TILT", 1)]);
    let mut hits: Vec<(u32, u32)> = (1..=7).rev().map(|window| (window, 16 * 4)).collect();
    hits.push((8, 0));
    assert_eq!(twin.query(&[b"DOOR", b"TILT"], 8), Ok((hits, 15)));
}

/// Counts 31 and 32 weigh 80 both, and the later window comes first.
#[test]
fn equal_scores_go_by_falling_number() {
    let mut twin = Twin::new(4, 4);
    window(&mut twin, &[(b"LUCKY", 32)]);
    window(&mut twin, &[(b"LUCKY", 31)]);
    window(&mut twin, &[(b"TILT", 1)]);
    let hits = vec![(2, 80 * 9), (1, 80 * 9)];
    assert_eq!(twin.query(&[b"LUCKY"], 3), Ok((hits, 2)));
}
