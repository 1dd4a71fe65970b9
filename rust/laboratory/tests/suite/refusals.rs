//! What the command cannot do: an exit status, and a sentence.

use crate::calls::{bad, failure, good, program, run};
use crate::folder::Folder;
use laboratory::{Failure, Outcome, obey};
use std::ffi::OsString;
use std::fs::{self, File};
use std::io::{self, Write};
use std::path::Path;
use std::process::{Command, Stdio};

const LINES: &str = "O\nE A\nC\nQ 1 A\n";
const PLAN: &str = "# a window\nO\nE A\nC\n";

/// Words of a call, parted by spaces, and what is said of it.
const REFUSED: [(&str, &str); 78] = [
    (
        "dance",
        "no such command: dance; gemsilver --help tells more",
    ),
    ("RUN lines.txt", "no such command: RUN; "),
    ("help dance", "no such command: dance; "),
    ("run", "FILE is missing; "),
    ("run lines.txt more", "more is too much; "),
    ("run lines.txt --loud", "no such option: --loud; "),
    ("run lines.txt --from", "--from takes a number; "),
    ("run lines.txt --to x", "--to: x is no number; "),
    (
        "query lines.txt 1 A --from 65536",
        "--from is 0 to 65535, not 65536; ",
    ),
    (
        "query lines.txt 1 A --to 99999",
        "--to is 0 to 65535, not 99999; ",
    ),
    (
        "mean lines.txt A --from 1",
        "mean asks no query: it takes no --from and --to; ",
    ),
    (
        "at lines.txt:1 --to 3",
        "at asks no query: it takes no --from and --to; ",
    ),
    (
        "open old.snapshot",
        "old.snapshot: a snapshot of version 1, and this program reads version 2: ",
    ),
    ("run missing.txt", "missing.txt: No such file or directory"),
    ("run sub", "sub: Is a directory"),
    ("run lines.txt --blocks", "--blocks takes a number; "),
    ("run lines.txt --blocks x", "--blocks: x is no number; "),
    ("run lines.txt --blocks -4", "--blocks: -4 is no number; "),
    (
        "run lines.txt --blocks 3",
        "a card has 4 to 4096 blocks, a register 1 to 1024 entries; ",
    ),
    (
        "run lines.txt --blocks 4097",
        "a card has 4 to 4096 blocks, ",
    ),
    (
        "run lines.txt --blocks 18446744073709551615",
        "a card has 4 to 4096 blocks, ",
    ),
    (
        "run lines.txt --entries 0",
        "a register 1 to 1024 entries; ",
    ),
    (
        "run lines.txt --entries 1025",
        "a register 1 to 1024 entries; ",
    ),
    ("at lines.txt:1 --blocks 3", "a card has 4 to 4096 blocks, "),
    (
        "against all lines.txt --blocks 3",
        "a card has 4 to 4096 blocks, ",
    ),
    (
        "moments lines.txt Q --entries 0",
        "QUERY is a line that asks for something, ",
    ),
    ("at", "FILE:LINE or a snapshot is missing; "),
    ("at missing.txt:1", "missing.txt: No such file or directory"),
    ("at sub:1", "sub: Is a directory"),
    (
        "at lines.txt:5",
        "lines.txt: there is no line 5: the file has 4",
    ),
    ("at lines.txt:-1", "lines.txt:-1: No such file or directory"),
    (
        "at junk.txt",
        "junk.txt: none of its lines is a command; no snapshot: byte 0 is not that of one",
    ),
    ("at lines.txt:1 see card", "`look` was expected, not see; "),
    ("at lines.txt:1 look", "what to look at is missing; "),
    (
        "at lines.txt:1 look moon",
        "look at card, partition N, buffer, register or merge, not at moon; ",
    ),
    (
        "at lines.txt:1 look partition",
        "the partition's number takes a number; ",
    ),
    (
        "at lines.txt:1 look partition one",
        "the partition's number: one is no number; ",
    ),
    (
        "at lines.txt:1 look partition 0",
        "lines.txt: there is no partition 0: 0 are finished, numbered from 1",
    ),
    ("at lines.txt:1 look card more", "more is too much; "),
    ("open", "SNAPSHOT is missing; "),
    (
        "open missing.snapshot",
        "missing.snapshot: No such file or directory",
    ),
    ("open sub", "sub: Is a directory"),
    (
        "open lines.txt",
        "lines.txt: no snapshot: byte 0 is not that of one",
    ),
    (
        "open torn.snapshot",
        "torn.snapshot: cut off: it has 12 bytes of 32",
    ),
    ("where lines.txt", "WINDOW takes a number; "),
    ("where lines.txt one", "WINDOW: one is no number; "),
    ("where lines.txt 0", "WINDOW is 1 to 65535, not 0; "),
    ("why lines.txt 65536 A", "WINDOW is 1 to 65535, not 65536; "),
    (
        "moments lines.txt Q 1 \\x4",
        "identifier \\x4: a backslash is written \\\\, ",
    ),
    (
        "run torn.snapshot",
        "torn.snapshot: it is a snapshot and no file of lines",
    ),
    ("page torn.snapshot", "torn.snapshot: it is a snapshot "),
    ("at torn.snapshot:1", "torn.snapshot: it is a snapshot "),
    (
        "where torn.snapshot 1",
        "torn.snapshot: cut off: it has 12 bytes of 32",
    ),
    ("why lines.txt", "WINDOW takes a number; "),
    (
        "why lines.txt 1 A\\n",
        "identifier A\\n: a backslash is written \\\\, and any byte \\x and two digits; ",
    ),
    ("query lines.txt", "PLACES takes a number; "),
    ("query lines.txt 100000 A", "PLACES has 1 to 5 digits; "),
    (
        "query lines.txt 1 \\x4",
        "identifier \\x4: a backslash is written \\\\, ",
    ),
    ("mean lines.txt", "IDENTIFIER is missing; "),
    ("mean lines.txt A B", "B is too much; "),
    (
        "forecast",
        "FILE:LINE or a snapshot is missing; gemsilver --help tells more",
    ),
    ("forecast lines.txt", "PLAN is missing; "),
    ("forecast lines.txt plan.txt more", "more is too much; "),
    (
        "forecast lines.txt missing.txt",
        "missing.txt: No such file or directory",
    ),
    (
        "forecast lines.txt:9 plan.txt",
        "lines.txt: there is no line 9",
    ),
    (
        "forecast torn.snapshot plan.txt",
        "torn.snapshot: cut off: it has 12 bytes of 32",
    ),
    (
        "forecast lines.txt torn.snapshot",
        "torn.snapshot: it is a snapshot and no file of lines",
    ),
    (
        "forecast lines.txt lines.txt",
        "lines.txt: line 4, Q 1 A: a plan has lines O, E and C alone",
    ),
    (
        "forecast lines.txt junk.txt",
        "junk.txt: line 1, not one command: not understood: its first field is none of ",
    ),
    (
        "forecast lines.txt:0 plan.txt --blocks 3",
        "a card has 4 to 4096 blocks, ",
    ),
    ("moments lines.txt", "QUERY is missing; "),
    (
        "moments lines.txt O",
        "QUERY is a line that asks for something, as Q 5 LUCKY; ",
    ),
    ("against", "NAME is missing; "),
    (
        "against nobody lines.txt",
        "the wrong engines are cut-identifiers, added-frequencies, ",
    ),
    ("against all", "FILE is missing; "),
    (
        "moments lines.txt Q --against",
        "the wrong engines are cut-identifiers, ",
    ),
    ("save lines.txt", "OUT is missing; "),
    (
        "save lines.txt no/where",
        "no/where: No such file or directory",
    ),
];

/// A folder with a file of lines, a plan, a folder, a torn snapshot, one of another version and a file that is neither.
fn folder() -> Folder {
    let folder = Folder::new();
    folder.write("lines.txt", LINES);
    folder.write("plan.txt", PLAN);
    folder.write("torn.snapshot", b"GEMSILVER\r\n\x1a");
    folder.write("junk.txt", "not one command\n");
    let mut old = b"GEMSILVER\r\n\x1a\x01\0\0\0".to_vec();
    old.resize(28 + 2_456 + 4 * 4_096 + 65 + 4, 0);
    folder.write("old.snapshot", old);
    fs::create_dir(folder.path("sub")).expect("a folder");
    folder
}

fn parted(line: &str) -> Vec<String> {
    line.split(' ').map(String::from).collect()
}

#[test]
fn what_cannot_be_done_is_told_with_status_2() {
    let folder = folder();
    for (line, expected) in REFUSED {
        let output = program(Path::new(&folder.path("")), &parted(line));
        let said = String::from_utf8(output.stderr).expect("text");
        assert_eq!(output.status.code(), Some(2), "{line}: {said}");
        assert!(output.stdout.is_empty(), "{line}");
        assert!(
            said.starts_with("gemsilver: ") && said.contains(expected),
            "{line}: {said}"
        );
        assert_eq!(said.lines().count(), 1, "{line}: {said}");
    }
}

#[test]
fn the_exit_status_tells_what_was_found() {
    let folder = folder();
    let statuses = [
        ("run lines.txt", 0),
        ("run junk.txt", 1),
        ("against forgotten-buffer lines.txt", 0),
        ("against cut-identifiers lines.txt", 1),
        ("help", 0),
        ("run --help", 0),
        ("why lines.txt 1", 1),
        ("query lines.txt 1 A --from 1 --to 1", 0),
        ("query lines.txt 1 A --from 2 --to 1", 0),
        ("why lines.txt 1 A --from 2 --to 1", 1),
        ("forecast lines.txt plan.txt", 0),
        ("forecast lines.txt:1 plan.txt", 1),
    ];
    for (line, status) in statuses {
        let output = program(Path::new(&folder.path("")), &parted(line));
        assert_eq!(output.status.code(), Some(status), "{line}");
        assert!(
            output.stderr.is_empty() && !output.stdout.is_empty(),
            "{line}"
        );
    }
}

/// A call of each command.
const CALLS: [&str; 14] = [
    "run lines.txt",
    "at lines.txt:2",
    "at lines.txt:2 look merge",
    "where lines.txt 1",
    "why lines.txt 1 A",
    "query lines.txt 1 A",
    "mean lines.txt A",
    "forecast lines.txt plan.txt",
    "moments lines.txt",
    "against all lines.txt",
    "against read-output lines.txt",
    "page lines.txt",
    "save lines.txt out.snapshot",
    "--help",
];

/// The words of a call, with paths in a folder, and the query that has spaces.
fn call_words(line: &str, folder: &Folder) -> Vec<String> {
    let place = |word: String| {
        let files = ["lines.txt", "plan.txt", "out.snapshot"];
        let place = |word: String, file: &&str| word.replace(file, &folder.path(file));
        files.iter().fold(word, place)
    };
    let mut words: Vec<String> = parted(line).into_iter().map(place).collect();
    if line.starts_with("moments") {
        words.push("Q 1 A".to_string());
    }
    words
}

#[test]
fn output_that_cannot_be_written_is_an_error_of_the_program() {
    let folder = folder();
    for line in CALLS {
        let full = File::options()
            .write(true)
            .open("/dev/full")
            .expect("/dev/full");
        let output = Command::new(env!("CARGO_BIN_EXE_gemsilver"))
            .args(call_words(line, &folder))
            .stdout(Stdio::from(full))
            .output()
            .expect("the program starts");
        let said = String::from_utf8(output.stderr).expect("text");
        assert_eq!(output.status.code(), Some(2), "{line}: {said}");
        assert!(
            said.starts_with("gemsilver: the output cannot be written: "),
            "{line}: {said}"
        );
    }
}

/// Takes so many bytes and no more.
struct Narrow(usize);

impl Write for Narrow {
    fn write(&mut self, bytes: &[u8]) -> io::Result<usize> {
        let taken = bytes.len().min(self.0);
        if taken == 0 && !bytes.is_empty() {
            return Err(io::ErrorKind::StorageFull.into());
        }
        self.0 -= taken;
        Ok(taken)
    }

    fn flush(&mut self) -> io::Result<()> {
        Ok(())
    }
}

/// Wherever the output ends, at its first byte or at its last.
#[test]
fn output_that_ends_early_is_an_error_of_every_command() {
    let folder = folder();
    for line in CALLS {
        let words = call_words(line, &folder);
        let given = || words.iter().map(OsString::from);
        let mut whole = Vec::new();
        obey(given(), &mut whole).expect("room for all");
        for room in [0, 1, whole.len() / 2, whole.len() - 1] {
            let result = obey(given(), &mut Narrow(room));
            assert!(
                matches!(result, Err(Failure::Output(_))),
                "{line}, room for {room}"
            );
        }
        obey(given(), &mut Narrow(whole.len())).expect("just enough room");
    }
}

#[test]
fn save_writes_over_a_snapshot_and_nothing_else() {
    let folder = folder();
    let (lines, out) = (folder.path("lines.txt"), folder.path("out.snapshot"));
    let save = |moment: &str| good(&["save", moment, &out]);
    let moments = [1, 3].map(|line| format!("{lines}:{line}"));
    assert_eq!(
        save(&moments[0]),
        format!("{out}: after line 1 of {lines}\n")
    );
    let first = fs::read(&out).expect("the snapshot");
    save(&moments[1]);
    let second = fs::read(&out).expect("the snapshot");
    assert!(first != second);
    let mut damaged = second.clone();
    damaged[100] ^= 1;
    let other = folder.write("damaged.snapshot", &damaged);
    let empty = folder.write("empty", "");
    let (sub, text) = (
        folder.path("sub"),
        "it is there and no snapshot: left as it is",
    );
    for kept in [&lines, &other, &empty, &sub, "/dev/full"] {
        let Failure::Input(why) = failure(&["save", &moments[0], kept]) else {
            panic!("another failure")
        };
        assert_eq!(why, format!("{kept}: {text}"));
    }
    assert_eq!(fs::read(&lines).expect("the lines"), LINES.as_bytes());
    assert!(fs::read(&other).expect("the damaged one") == damaged);
    assert!(fs::read(&empty).expect("the empty one").is_empty());
}

/// It is written beside the old one first; here a folder stands in its way.
#[test]
fn a_snapshot_that_cannot_be_written_leaves_the_old_one() {
    let folder = folder();
    let (lines, out) = (folder.path("lines.txt"), folder.path("out.snapshot"));
    good(&["save", &format!("{lines}:1"), &out]);
    let before = fs::read(&out).expect("the snapshot");
    fs::create_dir(folder.path("out.snapshot.part")).expect("a folder");
    let Failure::Input(why) = failure(&["save", &format!("{lines}:3"), &out]) else {
        panic!("another failure")
    };
    assert!(why.starts_with(&format!("{out}: ")), "{why}");
    assert!(fs::read(&out).expect("the snapshot") == before);
}

/// A pipe can be read only once.
#[test]
fn lines_may_come_through_a_pipe() {
    let mut child = Command::new(env!("CARGO_BIN_EXE_gemsilver"))
        .args(["at", "/dev/stdin"])
        .stdin(Stdio::piped())
        .stdout(Stdio::piped())
        .spawn()
        .expect("the program starts");
    let mut input = child.stdin.take().expect("a pipe");
    input.write_all(LINES.as_bytes()).expect("lines are read");
    drop(input);
    let output = child.wait_with_output().expect("its output");
    assert!(output.stdout.starts_with(b"after line 4 of /dev/stdin\n"));
}

/// A file whose name ends like a moment is that file.
#[test]
fn a_name_with_a_colon_is_a_file_where_there_is_one() {
    let folder = Folder::new();
    let file = folder.write("lines.txt:1", LINES);
    assert!(good(&["at", &file]).starts_with(&format!("after line 4 of {file}\n")));
    let moment = format!("{file}:2");
    assert!(good(&["at", &moment]).starts_with(&format!("after line 2 of {file}\n")));
}

#[test]
fn an_empty_file_is_a_fresh_card() {
    let folder = Folder::new();
    let file = folder.write("empty.txt", "");
    assert_eq!(
        run(&file, Outcome::Good),
        "0 lines understood, 0 not; 0 answers unlike the ledger's\n"
    );
    assert!(good(&["at", &file]).starts_with("a fresh card, before line 1 of "));
    assert!(bad(&["against", "all", &file]).ends_with("\n0 of 8 wrong engines told apart\n"));
    let comment = folder.write("comment.txt", "# nothing");
    assert!(good(&["at", &comment]).starts_with("after line 1 of "));
}
