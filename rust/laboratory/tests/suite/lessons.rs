//! The lessons' pages: every command on them prints what stands there.

use crate::calls::{of_repository, program, words};
use std::fs;
use std::path::{Path, PathBuf};
use std::process::Output;

/// The folders of the lessons.
fn folders() -> Vec<PathBuf> {
    let entries = fs::read_dir(of_repository("lessons")).expect("the lessons");
    let paths = entries.map(|entry| entry.expect("a lesson").path());
    let mut folders: Vec<PathBuf> = paths.filter(|path| path.is_dir()).collect();
    folders.sort();
    folders
}

/// The blocks of a page that begin with ```console.
fn blocks(page: &str) -> Vec<&str> {
    let parts = page.split("```console\n").skip(1);
    parts
        .map(|part| part.split_once("```").expect("the block's end").0)
        .collect()
}

/// What a call prints, as a page has it.
fn printed(output: Output) -> String {
    let [out, error] =
        [output.stdout, output.stderr].map(|bytes| String::from_utf8(bytes).expect("text"));
    let status = match output.status.code() {
        Some(0) => String::new(),
        Some(status) => format!("[exit status {status}]\n"),
        None => panic!("the program was killed"),
    };
    out + &error + &status
}

/// Runs the calls of a block, and gives how many there are.
fn run(block: &str, folder: &Path) -> usize {
    assert!(block.starts_with("$ "), "nothing is called:\n{block}");
    let block = format!("\n{block}");
    let calls: Vec<&str> = block.split("\n$ ").skip(1).collect();
    for call in &calls {
        let (line, expected) = call.split_once('\n').unwrap_or((call, ""));
        let arguments = line.strip_prefix("gemsilver ").expect("the command's name");
        let expected = format!("{}\n", expected.trim_end_matches('\n'));
        let found = printed(program(folder, &words(arguments)));
        assert_eq!(found, expected, "{}: {line}", folder.display());
    }
    calls.len()
}

#[test]
fn every_page_shows_what_its_commands_print() {
    let folders = folders();
    assert!(folders.len() >= 4, "{folders:?}");
    for folder in folders {
        let page = fs::read_to_string(folder.join("README.md")).expect("the lesson's page");
        let calls: usize = blocks(&page)
            .into_iter()
            .map(|block| run(block, &folder))
            .sum();
        println!("{}: {calls} calls", folder.display());
        assert!(calls >= 1, "{} has no call", folder.display());
    }
}
