//! The help: for all commands, for each, and its examples.

use crate::calls::{good, program, top, words};
use crate::folder::Folder;
use laboratory::examples;

/// The names of the commands.
const NAMES: [&str; 12] = [
    "run", "at", "open", "where", "why", "query", "mean", "forecast", "moments", "against", "page",
    "save",
];

#[test]
fn help_names_every_command() {
    let help = good(&["--help"]);
    for words in [&["-h"][..], &["help"], &[]] {
        assert_eq!(good(words), help, "{words:?}");
    }
    for name in NAMES {
        assert_eq!(
            help.matches(&format!("\n  gemsilver {name} ")).count(),
            1,
            "{name}"
        );
    }
    assert_eq!(help.matches("\n  gemsilver ").count(), NAMES.len());
}

#[test]
fn every_command_has_a_help_with_its_example() {
    let examples: Vec<&str> = examples().collect();
    assert_eq!(examples.len(), NAMES.len());
    for (name, example) in NAMES.into_iter().zip(examples) {
        let help = good(&[name, "--help"]);
        for words in [&["help", name][..], &["--help", name], &[name, "-h"]] {
            assert_eq!(good(words), help, "{words:?}");
        }
        assert!(help.starts_with(&format!("gemsilver {name} ")), "{help}");
        assert!(example.starts_with(&format!("{name} ")), "{example}");
        assert!(
            help.ends_with(&format!("\nExample:\n  gemsilver {example}\n")),
            "{help}"
        );
    }
}

/// An example's words, without its redirection, and with the snapshot in a folder of the test.
fn example_words(example: &str, folder: &Folder) -> Vec<String> {
    let call = example.split(" > ").next().unwrap_or(example);
    let place = |word: String| match &word[..] {
        "field.snapshot" => folder.path("field.snapshot"),
        _ => word,
    };
    words(call).into_iter().map(place).collect()
}

/// `save` goes first, since `open` needs what it has written.
#[test]
fn every_example_ends_well_and_shows_something() {
    let folder = Folder::new();
    let mut examples: Vec<&str> = examples().collect();
    examples.sort_by_key(|example| !example.starts_with("save "));
    for example in examples {
        let output = program(&top(), &example_words(example, &folder));
        let [said, text] =
            [output.stderr, output.stdout].map(|it| String::from_utf8_lossy(&it).into_owned());
        assert_eq!(output.status.code(), Some(0), "{example}: {said}{text}");
        assert!(said.is_empty() && !text.is_empty(), "{example}: {said}");
        let shows_nothing = [
            "no hit\n",
            "0 hits",
            "no counts anywhere",
            "none in progress",
        ];
        let is_run = example.starts_with("run ") || example.starts_with("page ");
        let is_idle = shows_nothing.iter().any(|nothing| text.contains(nothing));
        assert!(is_run || !is_idle, "{example} shows nothing:\n{text}");
    }
}

/// Options may stand anywhere, and after `--` none is meant.
#[test]
fn options_stand_anywhere_and_end_at_two_dashes() {
    let folder = Folder::new();
    let file = folder.write("lines.txt", "O\nE --help\nC\n");
    let text = good(&["run", "--blocks", "4", &file]);
    assert!(text.ends_with("3 lines understood, 0 not; 0 answers unlike the ledger's\n"));
    let mean = good(&["mean", &file, "--", "--help"]);
    assert_eq!(
        mean,
        "--help: mean 1, remainder 0: 1 in 1 window | ledger: same\n"
    );
    assert_eq!(good(&["mean", &file, "--help"]), good(&["help", "mean"]));
}
