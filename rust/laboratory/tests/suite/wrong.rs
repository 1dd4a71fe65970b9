//! Wrong engines: the lessons tell each of them apart, and nothing tells the unchanged one apart.

use crate::calls::{bad, call, good, of_repository};
use crate::folder::Folder;
use crate::history::{History, LARGE, MANY, SMALL};
use laboratory::Outcome;
use second::faults::Fault;
use std::collections::BTreeSet;

const UNTOLD: &str = "these lines do not tell it apart";

const FILES: [&str; 5] = [
    "lessons/1-full-length/lines.txt",
    "lessons/2-removed-is-not-gone/lines.txt",
    "lessons/3-several-partitions/lines.txt",
    "lessons/4-between-merge-steps/lines.txt",
    "rust/second/samples/lucky.txt",
];

/// What the table says of an engine.
fn row<'a>(table: &'a str, name: &str) -> &'a str {
    let rows = table.lines().filter_map(|line| line.split_once(' '));
    let mut rows = rows.filter(|(first, _)| *first == name);
    let (_, verdict) = rows
        .next()
        .unwrap_or_else(|| panic!("no row {name}:\n{table}"));
    assert!(rows.next().is_none(), "two rows {name}");
    verdict.trim_start()
}

/// The engines that a file tells apart, by the table and by a call for each. Those that need a stretch are in the table where there is one.
fn told_apart(file: &str, options: &[&str]) -> BTreeSet<&'static str> {
    let has_stretch = options.contains(&"--from");
    let faults = Fault::ALL.into_iter();
    let faults: Vec<Fault> = faults
        .filter(|fault| has_stretch || !fault.needs_stretch())
        .collect();
    let table = call(&[&["against", "all", file][..], options].concat());
    assert_eq!(row(&table.text, "unchanged"), UNTOLD, "{file}");
    let told: BTreeSet<&str> = faults
        .iter()
        .map(|fault| fault.name())
        .filter(|name| is_told(name, file, options, row(&table.text, name)))
        .collect();
    let count = faults.len();
    let last = format!("{} of {count} wrong engines told apart", told.len());
    assert_eq!(table.text.lines().last(), Some(&last[..]));
    let is_all = told.len() == count;
    assert_eq!(table.result.ok() == Some(Outcome::Good), is_all, "{file}");
    told
}

fn is_told(name: &str, file: &str, options: &[&str], verdict: &str) -> bool {
    let words = [&["against", name, file][..], options].concat();
    let is_told = verdict != UNTOLD;
    let text = if is_told { good(&words) } else { bad(&words) };
    assert!(text.lines().any(|line| line == verdict), "{name} {file}");
    is_told
}

#[test]
fn every_wrong_engine_is_told_apart_by_a_lesson() {
    let files = FILES.map(of_repository);
    let mut told: BTreeSet<&str> = files
        .iter()
        .flat_map(|file| told_apart(file, &["--blocks", "64"]))
        .collect();
    let all = |needs_stretch: bool| -> BTreeSet<&str> {
        let faults = Fault::ALL
            .iter()
            .filter(|it| it.needs_stretch() <= needs_stretch);
        faults.map(|fault| fault.name()).collect()
    };
    assert_eq!(told, all(false));
    for (file, from, to) in [
        (&files[1], "2", "9"),
        (&files[3], "9", "14"),
        (&files[3], "14", "16"),
    ] {
        let options = ["--blocks", "64", "--from", from, "--to", to];
        told.extend(told_apart(file, &options));
    }
    assert_eq!(told, all(true));
}

/// Three partitions: LUCKY in windows 1 and 2, LUCKY in 3, TILT in 4 and 5 and LUCKY in 4; one more of LUCKY in 7 and of TILT in 6, whose list is the
/// last.
#[test]
fn a_stretch_tells_engines_apart_that_nothing_else_does() {
    let folder = Folder::new();
    let window = |events: &str| {
        let events = events.split(' ').map(|event| format!("E {event}\n"));
        format!("O\n{}C\n", events.collect::<String>())
    };
    let windows = [
        "LUCKY",
        "LUCKY",
        "LUCKY",
        "LUCKY TILT",
        "TILT",
        "TILT",
        "LUCKY",
    ]
    .map(window);
    let lines = format!(
        "{}F\n{}F\n{}F\n{}F\nQ 7 LUCKY\n",
        windows[..2].concat(),
        windows[2],
        windows[3..5].concat(),
        windows[5..].concat()
    );
    let file = folder.write("lines.txt", lines);
    let five = Fault::ALL.into_iter().filter(|fault| fault.needs_stretch());
    let five: BTreeSet<&str> = five.map(|fault| fault.name()).collect();
    let told = |from: &str, to: &str| -> BTreeSet<&str> {
        let told = told_apart(&file, &["--from", from, "--to", to]);
        told.intersection(&five).copied().collect()
    };
    assert_eq!(told("1", "65535"), BTreeSet::new());
    // Window 2 lies beside window 1; the last partition is outside.
    let beside = [
        "lowest-alone",
        "taken-outside",
        "live-outside",
        "frequency-outside",
    ];
    assert_eq!(told("2", "5"), BTreeSet::from(beside));
    let last = told("7", "7");
    assert!(last.contains("last-list-highest"), "{last:?}");
}

#[test]
fn nothing_tells_the_unchanged_engine_apart() {
    let folder = Folder::new();
    let mut told = BTreeSet::new();
    for (seed, plan) in [SMALL, MANY, LARGE, SMALL, MANY].iter().enumerate() {
        let history = History::new(plan, 90 + seed as u64);
        let file = folder.write("lines.txt", history.text());
        told.extend(told_apart(&file, &["--blocks", &history.blocks]));
    }
    // Random lines are no worse a test than the lessons, or these histories would have nothing in them.
    assert!(told.len() >= 6, "{told:?}");
}

#[test]
fn every_wrong_engine_stands_in_the_help() {
    let help = good(&["against", "--help"]);
    for fault in Fault::ALL {
        let start = format!("\n  {} ", fault.name());
        assert_eq!(help.matches(&start).count(), 1, "{}", fault.name());
    }
}

/// Two identifiers that are alike in sixteen bytes: 3 and 1 of two windows, so that S(4) = 32 and S(2) = 16 are
/// multiplied by S(2) - S(1) = 16; taken for one, both windows have it and the weight is 0, and of equal scores the later window is first.
#[test]
fn the_first_line_that_differs_is_shown_with_both_answers() {
    let folder = Folder::new();
    let name = "SIXTEEN-BYTES---";
    let window = |event: &str| format!("O\n{event}C\n");
    let three = format!("E {name}A\n").repeat(3);
    let lines = format!(
        "# doors\n{}{}Q 2 {name}A\n",
        window(&three),
        window(&format!("E {name}B\n"))
    );
    let file = folder.write("lines.txt", lines);
    let expected = format!(
        "cut-identifiers: identifiers are cut at sixteen bytes\n\
         told apart by line 10: Q 2 {name}A\n  \
         ours  1 hit, 1 posting taken\n          window 1  score 512\n  \
         wrong 2 hits, 2 postings taken\n          window 2  score 0\n          window 1  score 0\n"
    );
    assert_eq!(good(&["against", "cut-identifiers", &file]), expected);
}

/// The open window is no hit for either, but its posting is taken up by the right engine alone.
#[test]
fn postings_taken_tell_an_engine_apart_too() {
    let folder = Folder::new();
    let file = folder.write("lines.txt", "O\nE A\nQ 1 A\n");
    let expected = "\
forgotten-buffer: a query does not read the buffer
told apart by line 3: Q 1 A
  ours  0 hits, 1 posting taken
  wrong 0 hits, 0 postings taken
";
    assert_eq!(good(&["against", "forgotten-buffer", &file]), expected);
}
