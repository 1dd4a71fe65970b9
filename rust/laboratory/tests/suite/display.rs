//! What is displayed, held against tools/read-card, which shares no code with it.

use crate::calls::{good, read_card};
use crate::folder::Folder;
use crate::history::{FULL, History, LARGE, MANY, Plan, SMALL};
use crate::rng::Rng;

const LABEL: &str = "# display, not proved\n";

/// What the moments had, so that nothing is compared only where there is nothing.
#[derive(Default, Debug)]
struct Met {
    moments: usize,
    sections: usize,
    merging: usize,
    levels: usize,
    long_outputs: usize,
    empty_outputs: usize,
    open: usize,
    negative: usize,
    unprinted: usize,
    live_windows: usize,
    removed_windows: usize,
    open_windows: usize,
    unread: usize,
}

fn what(words: &[&str]) -> Vec<String> {
    words.iter().map(|word| word.to_string()).collect()
}

/// A moment: its name, its card's blocks, and the snapshot of it.
struct Moment<'a> {
    name: String,
    blocks: &'a str,
    saved: String,
}

impl Moment<'_> {
    /// The command at the moment itself, its label taken off.
    fn at(&self, command: &str, what: &[&str]) -> String {
        let words = [&[command, &self.name][..], what, &["--blocks", self.blocks]];
        unlabelled(&good(&words.concat()))
    }

    /// The command on the snapshot.
    fn of_snapshot(&self, command: &str, what: &[&str]) -> String {
        unlabelled(&good(&[&[command, &self.saved][..], what].concat()))
    }

    /// The looks at it: every partition is one.
    fn looks(&self) -> Vec<Vec<String>> {
        let overview = good(&["open", &self.saved]);
        let lines = overview.lines();
        let partitions = lines.filter(|line| line.starts_with("partition ")).count();
        let looks = ["card", "buffer", "register", "merge"].map(|look| what(&[look]));
        let partition = |number: usize| what(&["partition", &number.to_string()]);
        looks
            .into_iter()
            .chain((1..=partitions).map(partition))
            .collect()
    }

    /// Some windows, the last number given and the one after it among them.
    fn windows(&self, rng: &mut Rng) -> Vec<usize> {
        let overview = good(&["open", &self.saved]);
        let after = overview.split("windows: last ").nth(1).expect("the last");
        let last = after.split(',').next().expect("a number");
        let last: usize = last.parse().expect("a number");
        let mut windows = vec![last.max(1), last + 1];
        windows.extend((0..4).map(|_| 1 + rng.below(last + 1)));
        windows
    }

    fn compare(&self, rng: &mut Rng, met: &mut Met) {
        let (looks, windows) = (self.looks(), self.windows(rng));
        let wheres: Vec<Vec<String>> = windows
            .iter()
            .map(|window| what(&["where", &window.to_string()]))
            .collect();
        let general = [what(&["windows"]), what(&["partitions"])];
        let whats = [&general[..], &looks, &wheres].concat();
        let sections = read_card(&self.saved, &whats).expect("a right snapshot");
        assert_eq!(sections.len(), whats.len(), "{}", self.name);
        let (general, rest) = sections.split_at(general.len());
        let (looked, placed) = rest.split_at(looks.len());
        self.compare_looks(&looks, looked);
        self.compare_overview(general, looked);
        met.note(general, looked);
        for (window, section) in windows.iter().zip(placed) {
            self.compare_where(&window.to_string(), section, &general[0], met);
        }
        met.sections += sections.len();
    }

    fn compare_looks(&self, looks: &[Vec<String>], sections: &[String]) {
        for (look, section) in looks.iter().zip(sections) {
            let words: Vec<&str> = ["look"]
                .into_iter()
                .chain(look.iter().map(|word| &word[..]))
                .collect();
            assert_eq!(&self.at("at", &words), section, "{} {look:?}", self.name);
            assert_eq!(
                &self.of_snapshot("open", &words),
                section,
                "{} {look:?}",
                self.saved
            );
        }
    }

    /// The overview has the windows, the map, and the first line of everything else.
    fn compare_overview(&self, general: &[String], looked: &[String]) {
        let [windows, partitions] = general else {
            panic!("two sections")
        };
        let [card, buffer, register, merge, ..] = looked else {
            panic!("four sections")
        };
        let first = |section: &str| section.lines().next().unwrap_or_default().to_string() + "\n";
        let partitions = match &partitions[..] {
            "no finished partitions\n" => "",
            partitions => partitions,
        };
        let expected = [
            windows,
            card,
            partitions,
            &first(buffer),
            &first(register),
            merge,
        ]
        .concat();
        let opened = good(&["open", &self.saved]);
        assert_eq!(
            opened,
            format!("the snapshot {}\n{LABEL}{expected}", self.saved)
        );
        let shown = good(&["at", &self.name, "--blocks", self.blocks]);
        let (before, _) = shown
            .split_once("# the plain ledger, not proved\n")
            .expect("a ledger");
        let (_, before) = before.split_once(LABEL).expect("a label");
        assert_eq!(before, expected, "{}", self.name);
    }

    /// The last line is the ledger's.
    fn compare_where(&self, window: &str, section: &str, windows: &str, met: &mut Met) {
        let text = self.at("where", &[window]);
        let ledger = text
            .strip_prefix(section)
            .unwrap_or_else(|| panic!("{} where {window}:\n{text}is not\n{section}", self.name));
        let of_snapshot = self.of_snapshot("where", &[window]);
        let none = "ledger: none, since a snapshot has no history\n";
        assert_eq!(of_snapshot, format!("{section}{none}"));
        let is_open = windows.contains(&format!(", open {window} "));
        let is_live = ledger.starts_with(&format!("ledger: window {window} has "));
        let is_there = section.contains("partition") || section.contains("buffer");
        met.open_windows += usize::from(is_open && is_there);
        met.live_windows += usize::from(is_live && !is_open && is_there);
        met.removed_windows += usize::from(!is_live && !is_open && is_there);
        met.unread += usize::from(section.contains("output, not read"));
    }
}

/// The text after the label, which stands first.
fn unlabelled(text: &str) -> String {
    let rest = text.strip_prefix(LABEL);
    rest.unwrap_or_else(|| panic!("no label:\n{text}"))
        .to_string()
}

impl Met {
    /// Counts what the independent reader has seen.
    fn note(&mut self, general: &[String], looked: &[String]) {
        let [windows, partitions] = general else {
            panic!("two sections")
        };
        let [_, buffer, register, merge, postings @ ..] = looked else {
            panic!("four sections")
        };
        let is_raised = |line: &str| line.contains(": level ") && !line.contains(": level 0,");
        let is_negative = |line: &str| {
            line.rsplit("  ")
                .next()
                .is_some_and(|it| it.starts_with('-'))
        };
        let blocks = merge
            .split(" blocks ")
            .nth(1)
            .and_then(|rest| rest.split(',').next());
        self.moments += 1;
        self.merging += usize::from(merge.starts_with("merge: step "));
        self.levels += usize::from(partitions.lines().any(is_raised));
        self.long_outputs += usize::from(blocks.is_some_and(|blocks| blocks.contains(' ')));
        self.empty_outputs += usize::from(merge.contains("output: none, all sums are 0"));
        self.open += usize::from(windows.contains(", open "));
        self.negative += usize::from(postings.iter().any(|part| part.lines().any(is_negative)));
        self.unprinted += usize::from(register.contains(r"\x") && buffer.contains(r"\x"));
    }
}

/// Moments of a history: some anywhere, some after a merge step, some within a window.
fn compare_history(plan: &Plan, seed: u64, met: &mut Met) {
    let history = History::new(plan, seed);
    let folder = Folder::new();
    let file = folder.write("lines.txt", history.text());
    let mut rng = Rng(seed + 1_000);
    let steps = steps(&file, &history.blocks);
    let events = history.lines_of(b"E");
    for _ in 0..3 {
        let anywhere = rng.below(history.lines.len());
        for line in [anywhere, rng.pick(&steps), rng.pick(&events)] {
            compare_moment(&folder, line, &history.blocks, &mut rng, met);
        }
    }
}

/// The lines at which a merge step was taken.
fn steps(file: &str, blocks: &str) -> Vec<usize> {
    let text = good(&["run", file, "--blocks", blocks]);
    let steps = text
        .lines()
        .filter_map(|line| line.split_once("  M -> stepped "));
    steps
        .map(|(number, _)| number.trim().parse().expect("a number"))
        .collect()
}

/// Compares the moment after a line of a folder's file.
fn compare_moment(folder: &Folder, line: usize, blocks: &str, rng: &mut Rng, met: &mut Met) {
    let moment = Moment {
        name: format!("{}:{line}", folder.path("lines.txt")),
        blocks,
        saved: folder.path("moment.snapshot"),
    };
    good(&["save", &moment.name, &moment.saved, "--blocks", blocks]);
    moment.compare(rng, met);
}

#[test]
fn looks_are_what_the_independent_reader_sees() {
    let mut met = Met::default();
    for (seed, plan) in [SMALL, MANY, FULL, LARGE, SMALL, MANY, FULL]
        .iter()
        .enumerate()
    {
        compare_history(plan, seed as u64, &mut met);
    }
    println!("{met:?}");
    assert!(met.moments >= 60, "{met:?}");
    assert!(met.merging >= 15, "{met:?}");
    assert!(met.levels >= 15, "{met:?}");
    assert!(met.long_outputs >= 3, "{met:?}");
    assert!(met.open >= 15, "{met:?}");
    assert!(met.negative >= 20, "{met:?}");
    assert!(met.unprinted >= 20, "{met:?}");
    assert!(met.live_windows >= 20, "{met:?}");
    assert!(met.removed_windows >= 10, "{met:?}");
    assert!(met.open_windows >= 5, "{met:?}");
    assert!(met.unread >= 5, "{met:?}");
}

/// Four windows of six identifiers, each removed again: eight partitions of 24 pairs, all of whose sums are 0, take two steps.
#[test]
fn a_merge_that_leaves_nothing_is_shown_alike() {
    let events: String = ('A'..='F').map(|name| format!("E {name}\n")).collect();
    let window = |number: usize| format!("O\n{events}C\nF\nR {number}\nF\n");
    let windows: String = (1..=4).map(window).collect();
    let lines = windows.lines().count();
    let mut met = Met::default();
    let folder = Folder::new();
    folder.write("lines.txt", format!("{windows}M\nM\n"));
    for line in [0].into_iter().chain(lines - 1..=lines + 2) {
        compare_moment(&folder, line, "16", &mut Rng(5), &mut met);
    }
    assert_eq!((met.moments, met.merging, met.empty_outputs), (5, 1, 1));
}
