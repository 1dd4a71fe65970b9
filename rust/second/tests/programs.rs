//! The proved command program and the second engine's print the same for the same lines.
//!
//! The proved one is built by the gate (`rt check probe`).

use std::io::Write;
use std::path::Path;
use std::process::{Command, Stdio};

/// A small generator of numbers, the same at every run.
struct Numbers(u64);

impl Numbers {
    fn next(&mut self) -> u64 {
        self.0 = self.0.wrapping_add(0x9e37_79b9_7f4a_7c15);
        let mut z = self.0;
        z = (z ^ (z >> 30)).wrapping_mul(0xbf58_476d_1ce4_e5b9);
        z = (z ^ (z >> 27)).wrapping_mul(0x94d0_49bb_1331_11eb);
        z ^ (z >> 31)
    }

    fn below(&mut self, bound: usize) -> usize {
        (self.next() % bound as u64) as usize
    }

    fn one_of<'a>(&mut self, texts: &[&'a str]) -> &'a str {
        texts[self.below(texts.len())]
    }
}

/// What a program prints for these lines.
fn printed(program: &Path, lines: &[u8]) -> Vec<u8> {
    let mut child = Command::new(program)
        .stdin(Stdio::piped())
        .stdout(Stdio::piped())
        .spawn()
        .unwrap_or_else(|why| panic!("{}: {why}", program.display()));
    let mut input = child.stdin.take().expect("a pipe");
    let sent = lines.to_vec();
    let writer = std::thread::spawn(move || input.write_all(&sent));
    let output = child.wait_with_output().expect("its output");
    writer
        .join()
        .expect("the writer")
        .expect("all lines are read");
    assert!(output.status.success(), "{}", program.display());
    output.stdout
}

/// An identifier: mostly one of a few, else of an odd length or with odd bytes.
fn identifier(numbers: &mut Numbers) -> Vec<u8> {
    match numbers.below(20) {
        0 => vec![b'x'; 64],
        1 => vec![b'x'; 65],
        2 => vec![0, 255, 13, 9, 128],
        3 => [&[b'y'; 16][..], &[b'0' + numbers.below(10) as u8]].concat(),
        4..=9 => format!("n{}", numbers.below(90)).into_bytes(),
        _ => numbers
            .one_of(&["LUCKY", "TILT", "DOOR", "COIN", "BELL", "SEVEN", "L", "BAR"])
            .as_bytes()
            .to_vec(),
    }
}

/// A line that is no command.
fn malformed(numbers: &mut Numbers) -> Vec<u8> {
    match numbers.below(6) {
        0 => [b"E ".to_vec(), vec![b'z'; 511]].concat(),
        1 => vec![b'Q'; 513 + numbers.below(9_000)],
        _ => numbers
            .one_of(&[
                "",
                " ",
                "O ",
                " O",
                "o",
                "E",
                "E ",
                "E  A",
                "E A B",
                "C 1",
                "R",
                "R x",
                "R 1 2",
                "R 123456",
                "R -1",
                "F F",
                "M 1",
                "Q",
                "Q ",
                "Q x A",
                "Q 123456 A",
                "Q 1  A",
                "Q 1 A ",
                "X",
                "EA",
                "R1",
                "\r",
                "O\r",
                "C\0",
            ])
            .as_bytes()
            .to_vec(),
    }
}

/// A query of so many places and identifiers as come.
fn query(numbers: &mut Numbers) -> Vec<u8> {
    let places = numbers.one_of(&["1", "2", "3", "10", "32", "00032", "0", "33", "99999"]);
    let mut line = format!("Q {places}").into_bytes();
    for _ in 0..numbers.below(7) {
        line.push(b' ');
        line.extend(identifier(numbers));
    }
    line
}

/// A line of the script.
fn line(numbers: &mut Numbers, windows: usize) -> Vec<u8> {
    match numbers.below(100) {
        0..=7 => b"O".to_vec(),
        8..=54 => [b"E ".to_vec(), identifier(numbers)].concat(),
        55..=61 => b"C".to_vec(),
        62..=67 => format!("R {}", numbers.below(windows + 3)).into_bytes(),
        68 => format!(
            "R {}",
            numbers.one_of(&["65535", "65536", "99999", "00001", "0"])
        )
        .into_bytes(),
        69..=75 => b"F".to_vec(),
        76..=84 => b"M".to_vec(),
        85..=93 => query(numbers),
        94 => [b"E ".to_vec(), vec![b'w'; 510]].concat(),
        _ => malformed(numbers),
    }
}

#[test]
fn both_programs_print_the_same() {
    let proved = Path::new(env!("CARGO_MANIFEST_DIR")).join("../../target/bin/probe");
    let second = Path::new(env!("CARGO_BIN_EXE_second-probe"));
    let mut numbers = Numbers(7);
    let mut compared = 0;
    let mut met = [0; 15];
    for script in 0..12 {
        let mut lines = Vec::new();
        let count = 1_000;
        for at in 0..count {
            lines.extend(line(&mut numbers, at / 10));
            if at + 1 < count || script % 2 == 0 {
                lines.push(b'\n');
            }
        }
        let told = printed(second, &lines);
        assert!(printed(&proved, &lines) == told, "script {script}");
        compared += count;
        for answer in told.split(|byte| *byte == b'\n') {
            if let Some(number) = answer.strip_prefix(b"!") {
                let number: usize = std::str::from_utf8(number)
                    .expect("digits")
                    .parse()
                    .expect("a number");
                met[number] += 1;
            }
        }
    }
    println!("{compared} lines compared; refusals met: {met:?}");
    for number in [4, 5, 7, 8, 11, 13, 14] {
        assert!(met[number] > 0, "refusal {number} was not met: {met:?}");
    }
}

/// One window with 1,023 of each of five identifiers, and 255 with one of another:
/// 1,024 is 2^10 and 256 is 2^8, so that the score is 5 * 160 * 128.
#[test]
fn both_programs_print_a_score_of_six_digits() {
    let proved = Path::new(env!("CARGO_MANIFEST_DIR")).join("../../target/bin/probe");
    let second = Path::new(env!("CARGO_BIN_EXE_second-probe"));
    let events = |name: &str| format!("E {name}\n").repeat(1_023);
    let counted: String = ["A", "B", "C", "D", "E"].map(events).concat();
    let others = "O\nE DOOR\nC\n".repeat(255);
    let lines = format!("O\n{counted}C\n{others}Q 1 A B C D E\n").into_bytes();
    let told = printed(second, &lines);
    assert!(told.ends_with(b"\n1 5\n1 102400\n"));
    assert!(printed(&proved, &lines) == told);
}

#[test]
fn an_empty_input_prints_nothing() {
    let proved = Path::new(env!("CARGO_MANIFEST_DIR")).join("../../target/bin/probe");
    assert!(printed(&proved, b"").is_empty());
}
