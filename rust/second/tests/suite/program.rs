//! The command program, a line at a time and by its sample.

use second::commands::Probe;

/// The answers to a text, line by line.
fn answers(text: &[u8]) -> String {
    let mut probe = Probe::new();
    let lines = text.strip_suffix(b"\n").unwrap_or(text);
    lines
        .split(|&byte| byte == b'\n')
        .map(|line| probe.obey(line))
        .collect()
}

#[test]
fn the_sample_gives_its_output() {
    let sample = include_bytes!("../../samples/lucky.txt");
    let expected = "1\n0\n0\n0\n0\n0\n2\n0\n0\n2 3\n1 256\n2 0\n";
    assert_eq!(answers(sample), expected);
    assert_eq!(include_str!("../../samples/lucky.out"), expected);
}

#[test]
fn the_program_itself_gives_the_sample_output() {
    use std::io::Write;
    use std::process::{Command, Stdio};
    let sample = include_bytes!("../../samples/lucky.txt");
    let mut child = Command::new(env!("CARGO_BIN_EXE_second-probe"))
        .stdin(Stdio::piped())
        .stdout(Stdio::piped())
        .spawn()
        .unwrap();
    let mut input = child.stdin.take().unwrap();
    // The last line has no end, and is a line all the same.
    input.write_all(&sample[..sample.len() - 1]).unwrap();
    drop(input);
    let output = child.wait_with_output().unwrap();
    assert_eq!(output.stdout, include_bytes!("../../samples/lucky.out"));
}

/// One window with 1,023 of each of five identifiers, and 255 with one of another.
#[test]
fn a_score_of_six_digits_is_printed() {
    let mut text = b"O\n".to_vec();
    for identifier in ["A", "B", "C", "D", "E"] {
        text.extend(format!("E {identifier}\n").repeat(1_023).into_bytes());
    }
    text.extend(b"C\n");
    text.extend(b"O\nE DOOR\nC\n".repeat(255));
    text.extend(b"Q 1 A B C D E\nQ 2 DOOR E\n");
    // 1,024 is 2^10 and 256 is 2^8: 5 * 160 * 128, and 160 * 128 for E alone. DOOR
    // is in 255 windows, and 255^16 lies between 2^127 and 2^128: 16 * (128 - 127).
    let expected = "1 5\n1 102400\n2 256\n1 20480\n256 16\n";
    assert!(answers(&text).ends_with(&format!("\n0\n{expected}")));
}

/// Each line on a fresh probe.
#[test]
fn lines_that_are_no_commands() {
    let lines = [
        "",
        " ",
        "o",
        "X",
        "O X",
        "O ",
        " O",
        "E",
        "E ",
        "E A B",
        "E  A",
        "C 1",
        "R",
        "R 1 2",
        "R x",
        "R -1",
        "R +1",
        "R 1x",
        "R 123456",
        "R 000001",
        "F F",
        "M 1",
        "Q",
        "Q ",
        "Q x A",
        "Q 1  A",
        "Q 1 A ",
        "Q 123456 A",
        "O\r",
        "OO",
    ];
    for line in lines {
        assert_eq!(Probe::new().obey(line.as_bytes()), "?\n", "{line:?}");
    }
}

#[test]
fn refusals_are_printed() {
    let cases = [
        ("E A", "!5\n"),
        ("C", "!5\n"),
        ("R 0", "!7\n"),
        ("R 00001", "!7\n"),
        ("R 65536", "!7\n"),
        ("R 99999", "!7\n"),
        ("F", "0\n"),
        ("M", "!13\n"),
        ("Q 5", "!14\n"),
        ("Q 0 A", "!14\n"),
        ("Q 33 A", "!14\n"),
        ("Q 99999 A", "!14\n"),
        ("Q 32 A", "0 0\n"),
        ("Q 00001 A", "0 0\n"),
        ("Q 1 A A", "!14\n"),
        ("Q 1 A B C D E", "0 0\n"),
        ("Q 1 A B C D E F", "!14\n"),
        ("Q 1 A\r B\0", "0 0\n"),
    ];
    for (line, answer) in cases {
        assert_eq!(Probe::new().obey(line.as_bytes()), answer, "{line:?}");
    }
}

#[test]
fn a_line_has_at_most_512_bytes() {
    let event = |length: usize| [b"E ".to_vec(), vec![b'A'; length]].concat();
    assert_eq!(Probe::new().obey(&event(510)), "!4\n");
    assert_eq!(Probe::new().obey(&event(511)), "?\n");
    assert_eq!(
        answers(&[event(5000), b"\nO\n".to_vec()].concat()),
        "?\n1\n"
    );
}

#[test]
fn identifiers_on_the_line_have_at_most_64_bytes() {
    let mut probe = Probe::new();
    probe.obey(b"O");
    let event = |length: usize| [b"E ".to_vec(), vec![0; length]].concat();
    assert_eq!(probe.obey(&event(64)), "0\n");
    assert_eq!(probe.obey(&event(65)), "!4\n");
    assert_eq!(probe.obey(b"R 1"), "!5\n");
}
