//! Both engines judge registers alike: whole ones, damaged ones, and ones that name an identifier twice.

use crate::rng::Rng;
use gemsilver::bytes;
use second::register;

const ENTRY: usize = 65;

/// A register with so many entries, of which the first `used` hold identifiers that mostly differ.
fn register_of(rng: &mut Rng, entries: usize, used: usize) -> Vec<u8> {
    let mut register = vec![0; entries * ENTRY];
    for entry in register.chunks_exact_mut(ENTRY).take(used) {
        let length = 1 + rng.below(64);
        entry[0] = length as u8;
        for byte in &mut entry[1..=length] {
            *byte = rng.below(256) as u8;
        }
    }
    register
}

/// Copies one entry over another, or changes one byte.
fn damage(rng: &mut Rng, register: &mut [u8]) {
    let entries = register.len() / ENTRY;
    if rng.below(3) == 0 {
        let from = rng.below(entries) * ENTRY;
        let to = rng.below(entries) * ENTRY;
        register.copy_within(from..from + ENTRY, to);
    } else {
        let place = if rng.below(2) == 0 {
            rng.below(entries) * ENTRY
        } else {
            rng.below(register.len())
        };
        register[place] = rng.below(70) as u8;
    }
}

#[test]
fn both_engines_judge_registers_alike() {
    let mut rng = Rng(1);
    let (mut kept, mut refused) = (0, 0);
    for round in 0..4_000 {
        let entries = [1, 2, 7, 64, 300, 1_024][round % 6];
        let used = rng.below(entries + 1);
        let mut register = register_of(&mut rng, entries, used);
        for _ in 0..rng.below(3) {
            damage(&mut rng, &mut register);
        }
        let told = bytes::register_ok(&register);
        assert_eq!(told, register::read(&register).is_some(), "round {round}");
        if told { kept += 1 } else { refused += 1 }
    }
    assert!(
        kept > 500 && refused > 500,
        "{kept} kept, {refused} refused"
    );
}

#[test]
fn a_register_past_1024_entries_is_refused() {
    assert!(bytes::register_ok(&vec![0; 1_024 * ENTRY]));
    assert!(!bytes::register_ok(&vec![0; 1_025 * ENTRY]));
}

#[test]
fn a_register_has_at_least_one_entry_and_whole_ones() {
    for length in [0, 1, ENTRY - 1, ENTRY + 1, 1_024 * ENTRY - 1] {
        assert!(!bytes::register_ok(&vec![0; length]), "{length} bytes");
    }
    assert!(bytes::register_ok(&[0; ENTRY]));
}
