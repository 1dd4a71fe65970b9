//! Calls of the command, in this process and as a program.

use laboratory::{Failure, Outcome, obey};
use std::ffi::OsString;
use std::path::{Path, PathBuf};
use std::process::{Command, Output};

/// How a call ended, and what it wrote.
pub struct Called {
    pub result: Result<Outcome, Failure>,
    pub text: String,
}

/// Calls the command in this process.
pub fn call(words: &[&str]) -> Called {
    let mut out = Vec::new();
    let result = obey(words.iter().map(OsString::from), &mut out);
    Called {
        result,
        text: String::from_utf8(out).expect("all bytes are shown as text"),
    }
}

/// What a call writes that must end well.
pub fn good(words: &[&str]) -> String {
    ended(words, Outcome::Good)
}

/// What `run` writes below its label, where it must end so.
pub fn run(file: &str, outcome: Outcome) -> String {
    let text = ended(&["run", file], outcome);
    let label = "# answers of the proved engine; the ledger beside them is not proved\n";
    text.strip_prefix(label).expect("the label").to_string()
}

/// What a call writes that must find something.
pub fn bad(words: &[&str]) -> String {
    ended(words, Outcome::Bad)
}

fn ended(words: &[&str], outcome: Outcome) -> String {
    let called = call(words);
    match called.result {
        Ok(found) => assert_eq!(found, outcome, "{words:?}\n{}", called.text),
        Err(failure) => panic!("{words:?}: {failure}"),
    }
    called.text
}

/// What is said of a call that must fail, and what kind of failure it is.
pub fn failure(words: &[&str]) -> Failure {
    let called = call(words);
    match called.result {
        Ok(_) => panic!("{words:?} did not fail:\n{}", called.text),
        Err(failure) => failure,
    }
}

/// The repository's top folder.
pub fn top() -> PathBuf {
    Path::new(env!("CARGO_MANIFEST_DIR")).join("../..")
}

/// A file of the repository, as a word.
pub fn of_repository(name: &str) -> String {
    top().join(name).to_str().expect("a path as text").into()
}

/// The program, called in a folder.
pub fn program(folder: &Path, words: &[String]) -> Output {
    Command::new(env!("CARGO_BIN_EXE_gemsilver"))
        .current_dir(folder)
        .args(words)
        .output()
        .expect("the program starts")
}

/// What the independent reader prints of a snapshot, a text for each thing, or why it refuses.
pub fn read_card(snapshot: &str, whats: &[Vec<String>]) -> Result<Vec<String>, String> {
    let output = Command::new("python3")
        .arg(of_repository("tools/read-card"))
        .arg(snapshot)
        .args(whats.concat())
        .output()
        .expect("python3 runs tools/read-card, and is needed for this test");
    let [text, said] =
        [output.stdout, output.stderr].map(|bytes| String::from_utf8(bytes).expect("ASCII"));
    match output.status.code() {
        Some(0) => {
            let sections = text.trim_end_matches('\n').split("\n\n");
            Ok(sections.map(|section| format!("{section}\n")).collect())
        }
        // Anything else is no judgement of the snapshot.
        Some(1) if said.starts_with("read-card: ") => Err(said),
        _ => panic!("read-card {whats:?}: {said}"),
    }
}

/// The words of a line as a shell parts them: at spaces, but not within single quotes.
pub fn words(line: &str) -> Vec<String> {
    let mut words = Vec::new();
    for (place, piece) in line.split('\'').enumerate() {
        if place % 2 == 1 {
            words.push(piece.to_string());
        } else {
            words.extend(piece.split_whitespace().map(String::from));
        }
    }
    words
}

/// A line's bytes as the command shows them.
pub fn shown(bytes: &[u8]) -> String {
    let shown = |&byte: &u8| match byte {
        b'\\' => r"\\".to_string(),
        b' '..=b'~' => char::from(byte).to_string(),
        _ => format!(r"\x{byte:02x}"),
    };
    bytes.iter().map(shown).collect()
}
