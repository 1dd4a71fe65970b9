//! Snapshots: what is written is read back, and every damage is found and told.

use crate::rng::Rng;
use gemsilver::{BLOCK, ENTRY, IMAGE, Part, Probe, Snapshot, SnapshotError};
use std::convert::Infallible;

/// A probe with counts on its card and in its buffer.
fn probe() -> Probe<Vec<u8>> {
    let buffers = [IMAGE, 4 * BLOCK, 3 * ENTRY].map(|length| vec![7; length]);
    let [image, card, register] = buffers;
    let mut probe = Probe::start(image, card, register).expect("a start");
    probe.open().expect("an open");
    probe.event("LUCKY").expect("an event");
    probe.flush().expect("a flush");
    probe.event("TILT").expect("an event");
    probe
}

/// A probe's snapshot as a file.
fn file(probe: &Probe<Vec<u8>>) -> Vec<u8> {
    let mut file = Vec::new();
    let Ok(()) = probe.snapshot().write(|piece| {
        file.extend_from_slice(piece);
        Ok::<(), Infallible>(())
    });
    file
}

/// A file with a word put in.
fn with_word(file: &[u8], at: usize, word: u32) -> Vec<u8> {
    let mut file = file.to_vec();
    file[at..at + 4].copy_from_slice(&word.to_le_bytes());
    file
}

#[test]
fn what_is_written_is_read_back() {
    let probe = probe();
    let file = file(&probe);
    assert_eq!(file.len(), 28 + IMAGE + 4 * BLOCK + 3 * ENTRY + 4);
    let read = Snapshot::read(&file).expect("a snapshot");
    assert_eq!(read, probe.snapshot());
    assert_eq!(read.probe().mean("LUCKY"), probe.mean("LUCKY"));
}

/// The check sum is the one of docs/FORMAT.md: CRC-32, of which these nine digits' value is well known.
#[test]
fn the_check_sum_is_crc_32() {
    let file = file(&probe());
    let (bytes, told) = file.split_at(file.len() - 4);
    let crc = |bytes: &[u8]| {
        let mut sum = u32::MAX;
        for byte in bytes {
            sum ^= u32::from(*byte);
            for _ in 0..8 {
                sum = sum >> 1 ^ if sum & 1 == 1 { 0xedb8_8320 } else { 0 };
            }
        }
        !sum
    };
    assert_eq!(crc(b"123456789"), 0xcbf4_3926);
    assert_eq!(told, crc(bytes).to_le_bytes());
}

#[test]
fn each_fault_is_told_apart() {
    let whole = file(&probe());
    let length = whole.len();
    let fault = |file: &[u8]| Snapshot::read(file).expect_err("a fault");
    assert_eq!(fault(b"O\nE LUCKY\n"), SnapshotError::Magic { at: 0 });
    assert_eq!(
        fault(&with_word(&whole, 8, 0)),
        SnapshotError::Magic { at: 8 }
    );
    assert_eq!(
        fault(&with_word(&whole, 12, 3)),
        SnapshotError::Version { version: 3 }
    );
    // Told by its version, before the length of its image.
    let of_version_1 = with_word(&with_word(&whole, 12, 1), 16, 2_456);
    let error = fault(&of_version_1);
    assert_eq!(error, SnapshotError::Version { version: 1 });
    assert_eq!(
        error.to_string(),
        "a snapshot of version 1, and this program reads version 2: in version 1 partitions tell no lowest and highest window"
    );
    for (at, part, length) in [
        (16, Part::Image, 2_863),
        (16, Part::Image, 2_456),
        (20, Part::Card, 3 * 4_096),
        (20, Part::Card, 4 * 4_096 + 1),
        (20, Part::Card, u32::MAX),
        (24, Part::Register, 0),
        (24, Part::Register, 64),
        (24, Part::Register, 65 * 1_025),
    ] {
        let error = fault(&with_word(&whole, at, length));
        assert_eq!(error, SnapshotError::Length { part, length });
    }
    let (needed, found) = (length, length - 1);
    assert_eq!(
        fault(&whole[..found]),
        SnapshotError::Short { needed, found }
    );
    assert_eq!(
        fault(b""),
        SnapshotError::Short {
            needed: 32,
            found: 0
        }
    );
    let mut longer = whole.clone();
    longer.push(0);
    let found = length + 1;
    assert_eq!(fault(&longer), SnapshotError::Long { needed, found });
    let hurt = with_word(&whole, 28, 1);
    assert!(matches!(fault(&hurt), SnapshotError::Checksum { .. }));
}

/// A byte changed, bytes cut off or put in anywhere: never taken for a snapshot, and never a panic.
#[test]
fn every_damage_is_found() {
    let whole = file(&probe());
    let mut rng = Rng(3);
    for damage in 0..2_000 {
        let mut hurt = whole.clone();
        let at = match rng.below(4) {
            0 => rng.below(40),
            _ => rng.below(hurt.len()),
        };
        match rng.below(3) {
            0 => hurt[at] ^= 1 << rng.below(8),
            1 => hurt.truncate(at),
            _ => hurt.insert(at, rng.below(256) as u8),
        }
        let error = Snapshot::read(&hurt).expect_err("a damage");
        assert!(!error.to_string().is_empty(), "damage {damage}");
    }
}
