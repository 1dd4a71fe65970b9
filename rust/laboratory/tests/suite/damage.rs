//! Damaged snapshots and damaged files of lines: never a panic, and a clear word.

use crate::calls::{Called, call, good, of_repository, read_card};
use crate::folder::Folder;
use crate::rng::Rng;
use laboratory::{Failure, Outcome};
use second::commands::Probe;
use std::fs;

const DAMAGES: usize = 5_000;
/// Bytes of a snapshot before its card, of a block and of a register's entry.
const CARD: usize = 28 + 2_864;
const BLOCK: usize = 4_096;
const ENTRY: usize = 65;

/// The CRC-32 of zlib and PNG, bit by bit.
fn crc(bytes: &[u8]) -> u32 {
    let mut sum = u32::MAX;
    for &byte in bytes {
        sum ^= u32::from(byte);
        for _ in 0..8 {
            let carry = if sum & 1 == 1 { 0xedb8_8320 } else { 0 };
            sum = sum >> 1 ^ carry;
        }
    }
    !sum
}

/// Puts the right CRC at the end of a snapshot.
fn mend(snapshot: &mut [u8]) {
    if let Some(end) = snapshot.len().checked_sub(4) {
        let sum = crc(&snapshot[..end]).to_le_bytes();
        snapshot[end..].copy_from_slice(&sum);
    }
}

/// Lines of so many windows of five identifiers, each with a flush.
fn flushed(windows: usize) -> String {
    let events: String = ["LUCKY", "TILT", "DOOR", "COIN", r"B\x"]
        .map(|name| format!("E {name}\n"))
        .concat();
    format!("O\n{events}C\nF\n").repeat(windows)
}

/// Snapshots of a fresh card, an open window, one partition, two levels, and a merge between its steps.
fn snapshots(folder: &Folder) -> Vec<Vec<u8>> {
    let open = "O\nE A\nE B\nE A\n";
    let merged = "M\n".repeat(3);
    let bases = [
        ("4", String::new()),
        ("4", format!("{}R 1\n{open}", flushed(1))),
        ("4", flushed(2)),
        (
            "16",
            format!("{}{merged}{}R 3\n{open}", flushed(8), flushed(2)),
        ),
        ("16", format!("{}R 2\nM\nM\n", flushed(8))),
    ];
    let saved = folder.path("base.snapshot");
    let save = |(blocks, lines): (&str, String)| {
        let file = folder.write("base.txt", lines);
        good(&["save", &file, &saved, "--blocks", blocks, "--entries", "6"]);
        fs::read(&saved).expect("the snapshot")
    };
    bases.map(save).into()
}

/// A place that matters: in the header, the image, a block's first bytes, its link, or the register.
fn place(snapshot: &[u8], rng: &mut Rng) -> usize {
    let blocks = (snapshot.len() - CARD) / BLOCK;
    let register = CARD + blocks * BLOCK;
    let block = CARD + rng.below(blocks) * BLOCK;
    match rng.below(8) {
        0 => rng.below(28),
        1 => 28 + 4 * rng.below(72),
        2 => 28 + 4 * (456 + rng.below(260)),
        3 => 28 + rng.below(2_864),
        4 => block + 4 * rng.below(40),
        5 => block + BLOCK - 4 + rng.below(4),
        6 => register + rng.below(6) * ENTRY + rng.below(20),
        _ => rng.below(snapshot.len()),
    }
}

/// Damages a snapshot in one way.
fn damage(snapshot: &mut Vec<u8>, rng: &mut Rng) {
    let at = place(snapshot, rng).min(snapshot.len() - 1);
    match rng.below(12) {
        0..=3 => snapshot[at] ^= 1 << rng.below(8),
        4..=5 => snapshot[at] = rng.pick(&[0, 1, 2, 5, 6, 127, 128, 254, 255]),
        6..=7 => {
            let word = rng.pick(&[0_u32, 1, 2, 7, 8, 65_534, 65_535, 65_536, 1 << 31, u32::MAX]);
            let at = (at & !3).min(snapshot.len() - 4);
            snapshot[at..at + 4].copy_from_slice(&word.to_le_bytes());
        }
        // An empty file is one of no lines.
        8 => snapshot.truncate(at.max(1)),
        9 => snapshot.insert(at, rng.next() as u8),
        10 => {
            snapshot.remove(at);
        }
        _ => exchange(snapshot, rng),
    }
}

/// Exchanges two blocks.
fn exchange(snapshot: &mut [u8], rng: &mut Rng) {
    let blocks = (snapshot.len() - CARD) / BLOCK;
    let card = &mut snapshot[CARD..CARD + blocks * BLOCK];
    let [one, other] = [rng.below(blocks), rng.below(blocks)];
    for byte in 0..BLOCK {
        card.swap(one * BLOCK + byte, other * BLOCK + byte);
    }
}

/// A command on a snapshot.
fn any_call(file: &str, rng: &mut Rng) -> Called {
    let looks = ["card", "buffer", "register", "merge"];
    let window = (1 + rng.below(12)).to_string();
    let number = rng.below(4).to_string();
    let plan = of_repository("lessons/4-between-merge-steps/plan.txt");
    match rng.below(8) {
        0 => call(&["open", file]),
        1 => call(&["open", file, "look", rng.pick(&looks)]),
        2 => call(&["open", file, "look", "partition", &number]),
        3 => call(&["where", file, &window]),
        4 => call(&["why", file, &window, "LUCKY", "A", "--from", &number]),
        5 => call(&["query", file, "5", "LUCKY", "TILT", "--to", &window]),
        6 => call(&["forecast", file, &plan]),
        _ => call(&["mean", file, "LUCKY"]),
    }
}

/// What is wrong with a file that cannot be read as it was written.
const READING: [&str; 6] = [
    "byte ", "version ", "length ", "CRC ", "cut off", "too long",
];
/// What is wrong with state, card, register or merge.
const WITHIN: [&str; 4] = [
    "refused 1: ",
    "refused 2: ",
    "refused 3: ",
    "there is no partition ",
];

#[derive(Default, Debug)]
struct Met {
    torn: usize,
    /// By the proved engine, with what and where as the display has it.
    refused: usize,
    /// Whole, but without the partition that was looked for.
    missing: usize,
    shown: usize,
}

impl Met {
    fn note(&mut self, called: Called, file: &str, is_mended: bool) {
        let text = match called.result {
            Ok(_) if is_mended => {
                assert!(!called.text.is_empty());
                self.shown += 1;
                return;
            }
            Ok(_) => panic!("a torn snapshot, {file}, was shown:\n{}", called.text),
            Err(Failure::Input(text)) => text,
            Err(other) => panic!("{other}"),
        };
        let (_, why) = text
            .split_once(&format!("{file}: "))
            .unwrap_or_else(|| panic!("{text}"));
        let names = |whats: &[&str]| whats.iter().any(|what| why.contains(what));
        if !is_mended || names(&READING) && !names(&WITHIN) {
            assert!(names(&READING), "{text}");
            self.torn += 1;
            return;
        }
        let is_missing = why.starts_with("there is no partition ");
        assert!(is_missing || is_explained(why), "{text}");
        self.missing += usize::from(is_missing);
        self.refused += usize::from(!is_missing);
    }
}

/// Whether a refusal comes with what is wrong, and where.
fn is_explained(why: &str) -> bool {
    let places = ["image: ", "register: ", "partition ", "merge: ", "block "];
    why.split_once("; ")
        .is_some_and(|(_, what)| places.iter().any(|place| what.starts_with(place)))
}

/// A base that is damaged in one way.
fn damaged(base: &[u8], rng: &mut Rng) -> Vec<u8> {
    let mut snapshot = base.to_vec();
    while snapshot == base {
        damage(&mut snapshot, rng);
    }
    snapshot
}

#[test]
fn damaged_snapshots_are_refused_or_shown() {
    let folder = Folder::new();
    let bases = snapshots(&folder);
    let mut rng = Rng(4_711);
    let mut met = Met::default();
    for number in 0..DAMAGES {
        let mut snapshot = damaged(&bases[number % bases.len()], &mut rng);
        let is_mended = rng.one_in(2);
        if is_mended {
            mend(&mut snapshot);
        }
        let file = folder.write("damaged.snapshot", snapshot);
        met.note(any_call(&file, &mut rng), &file, is_mended);
    }
    println!("{met:?}");
    assert!(met.torn >= 2_500, "{met:?}");
    assert!(met.refused >= 500, "{met:?}");
    assert!(met.shown >= 300, "{met:?}");
}

/// `open` shows what the independent reader takes, and refuses what that refuses.
#[test]
fn the_independent_reader_refuses_the_same_snapshots() {
    let folder = Folder::new();
    let bases = snapshots(&folder);
    let mut rng = Rng(99);
    let (mut shown, mut refused) = (0, 0);
    for number in 0..150 {
        let mut snapshot = damaged(&bases[number % bases.len()], &mut rng);
        mend(&mut snapshot);
        let file = folder.write("damaged.snapshot", snapshot);
        let opened = call(&["open", &file]);
        match read_card(
            &file,
            &["windows", "merge"].map(|what| vec![what.to_string()]),
        ) {
            Ok(sections) => {
                let [windows, merge] = &sections[..] else {
                    panic!("two sections")
                };
                assert!(opened.result.is_ok(), "{sections:?}");
                assert!(opened.text.contains(windows) && opened.text.ends_with(merge));
                shown += 1;
            }
            Err(why) => {
                assert!(opened.result.is_err(), "{why}");
                refused += 1;
            }
        }
    }
    println!("{shown} shown, {refused} refused by both");
    assert!(shown >= 20 && refused >= 80);
}

/// The right CRC is taken, so that the test above does not refuse all for that alone.
#[test]
fn a_mended_snapshot_is_the_one_that_was_saved() {
    let folder = Folder::new();
    for base in snapshots(&folder) {
        let mut mended = base.clone();
        let end = mended.len();
        mended[end - 4..].fill(0);
        mend(&mut mended);
        assert!(mended == base);
        let file = folder.write("base.snapshot", mended);
        good(&["open", &file]);
    }
}

/// Lines with everything in them: comments, a merge between its steps, a removal, queries.
fn lines() -> Vec<u8> {
    let text = format!(
        "# begin\n{}R 2\nM\nQ 3 LUCKY TILT\nM\nO\nE A\nQ 32 A\nM\nC\nF\n# end\n",
        flushed(8)
    );
    text.into_bytes()
}

/// Damages lines in one way.
fn damage_lines(lines: &mut Vec<u8>, rng: &mut Rng) {
    let at = rng.below(lines.len());
    let odd = rng.pick(&[
        0, b'\r', b'\t', b' ', b'\n', b'#', b'9', b'Q', 127, 128, 255,
    ]);
    match rng.below(10) {
        0..=2 => lines[at] = odd,
        3..=4 => lines.insert(at, odd),
        5..=6 => {
            lines.remove(at);
        }
        7 => {
            let long = vec![rng.pick(b"E x9"); 500 + rng.below(40)];
            lines.splice(at..at, long);
        }
        8 => {
            lines.splice(0..0, *b"\xef\xbb\xbf");
        }
        _ => {
            let piece = rng.pick(&[
                &b"\nE \n"[..],
                b"\nR 65536\n",
                b"\nQ 3\n",
                b"\n\n",
                b"\n#\n",
                b"\nR 1\n",
            ]);
            lines.splice(at..at, piece.iter().copied());
        }
    }
}

/// Whether every line is a comment, or understood by the second command program.
fn is_understood(text: &[u8]) -> bool {
    let mut probe = Probe::new();
    let mut lines: Vec<&[u8]> = text.split(|&byte| byte == b'\n').collect();
    if lines.last().is_some_and(|last| last.is_empty()) {
        lines.pop();
    }
    let mut lines = lines.into_iter();
    lines.all(|line| line.starts_with(b"#") || probe.obey(line) != "?\n")
}

#[test]
fn damaged_lines_are_borne() {
    let folder = Folder::new();
    let mut rng = Rng(1_234);
    let (mut understood, mut others) = (0, [0; 5]);
    for _ in 0..DAMAGES {
        let mut text = lines();
        for _ in 0..=rng.below(3) {
            damage_lines(&mut text, &mut rng);
        }
        let file = folder.write("lines.txt", &text);
        let is_good = is_understood(&text);
        let outcome = call(&["run", &file]).result.expect("an outcome");
        assert_eq!(outcome == Outcome::Good, is_good, "{}", text.escape_ascii());
        understood += usize::from(is_good);
        let moment = format!("{file}:{}", rng.below(20));
        let kind = rng.below(others.len());
        let other = match kind {
            0 => call(&["at", &moment]),
            1 => call(&["at", &file]),
            2 => call(&["against", "all", &file]),
            3 => call(&["moments", &file, "Q 3 LUCKY"]),
            _ => call(&["page", &file]),
        };
        let outcome = other.result.expect("an outcome");
        // The table is good only where all wrong engines are told apart, and so short a file does not do that.
        assert_eq!(outcome == Outcome::Good, kind != 2, "{}", other.text);
        assert!(!other.text.is_empty());
        others[kind] += 1;
    }
    println!("{understood} understood of {DAMAGES}; others {others:?}");
    assert!(understood >= 500 && DAMAGES - understood >= 500);
}
