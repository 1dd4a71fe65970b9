//! Answers: the engine's, the ledger's and the second command program's are the same, and every score is reckoned.

use crate::calls::{call, good, run, shown};
use crate::folder::Folder;
use crate::history::{FULL, History, LARGE, MANY, Plan, SMALL, text};
use crate::rng::Rng;
use gemsilver::Refusal;
use laboratory::Outcome;
use second::commands::Probe;

/// A history in a file.
struct Written {
    history: History,
    file: String,
    folder: Folder,
}

impl Written {
    fn new(plan: &Plan, seed: u64) -> Self {
        let (history, folder) = (History::new(plan, seed), Folder::new());
        let file = folder.write("lines.txt", history.text());
        Written {
            history,
            file,
            folder,
        }
    }

    /// What a command writes at the moment after a line.
    fn at(&self, command: &str, line: usize, words: &[&str]) -> String {
        let moment = format!("{}:{line}", self.file);
        let blocks = &self.history.blocks;
        good(&[&[command, &moment][..], words, &["--blocks", blocks]].concat())
    }

    /// One to five different identifiers, as they are shown.
    fn identifiers(&self, rng: &mut Rng) -> Vec<String> {
        let mut names: Vec<String> = (0..=rng.below(5))
            .map(|_| shown(&rng.pick(&self.history.names)))
            .collect();
        names.sort();
        names.dedup();
        names
    }

    /// How many windows have been opened up to a line.
    fn windows(&self, line: usize) -> usize {
        let lines = self.history.lines[..line].iter();
        lines.filter(|line| **line == b"O").count()
    }
}

/// Window and score of each hit.
fn hits(text: &str) -> Vec<(usize, usize)> {
    let hit = |line: &str| {
        let words: Vec<&str> = line.split_whitespace().collect();
        let [_, window, _, score] = words[..] else {
            panic!("no hit: {line}")
        };
        (
            window.parse().expect("a window"),
            score.parse().expect("a score"),
        )
    };
    let hits = text
        .lines()
        .skip(1)
        .take_while(|line| !line.starts_with('#'));
    hits.map(hit).collect()
}

/// A stretch as options: none, or from and to windows that may lie past the last.
fn stretch(written: &Written, line: usize, rng: &mut Rng) -> Vec<String> {
    let last = written.windows(line) + 1;
    let (one, other) = (1 + rng.below(last), 1 + rng.below(last));
    let (from, to) = (one.min(other).to_string(), one.max(other).to_string());
    match rng.below(6) {
        0..3 => vec![],
        3 => vec!["--from".into(), from],
        4 => vec!["--to".into(), to],
        _ => vec!["--from".into(), from, "--to".into(), to],
    }
}

#[derive(Default, Debug)]
struct Reckoned {
    hits: usize,
    /// Hits of a part of the windows, and windows outside it.
    of_parts: usize,
    outside: usize,
    unlisted: usize,
    left_out: usize,
    open: usize,
}

impl Reckoned {
    /// Every hit of a query, and some windows that are none.
    fn ask(&mut self, written: &Written, line: usize, rng: &mut Rng) {
        let names = written.identifiers(rng);
        let mut names: Vec<&str> = names.iter().map(|name| &name[..]).collect();
        let options = stretch(written, line, rng);
        names.extend(options.iter().map(|word| &word[..]));
        let query = [&["32"][..], &names].concat();
        let listed = hits(&written.at("query", line, &query));
        // A snapshot need not be played through for each window.
        let saved = written.folder.path("moment.snapshot");
        written.at("save", line, &[&saved]);
        let why = |window: usize| {
            let window = window.to_string();
            good(&[&["why", &saved, &window][..], &names].concat())
        };
        for &(window, score) in &listed {
            let text = why(window);
            assert!(text.contains(&format!("\ntotal {score}\n")), "{text}");
            assert!(
                text.ends_with(&format!("\nscore {score}: equal\n")),
                "{text}"
            );
        }
        self.hits += listed.len();
        if !options.is_empty() {
            self.of_parts += listed.len();
        }
        for _ in 0..10 {
            let window = 1 + rng.below(written.windows(line) + 1);
            if listed.iter().any(|hit| hit.0 == window) {
                continue;
            }
            let text = why(window);
            let is_left_out = text.ends_with("\nnot listed: its list is full of 32 better ones\n");
            assert!(
                is_left_out || text.ends_with("\nnot listed: equal\n"),
                "{text}"
            );
            assert!(!is_left_out || listed.len() == 32, "{text}");
            self.left_out += usize::from(is_left_out);
            self.open += usize::from(text.contains(" is open: no result yet\n"));
            self.outside += usize::from(text.contains(" is none of windows "));
            self.unlisted += 1;
        }
    }
}

#[test]
fn every_score_is_reckoned() {
    let mut reckoned = Reckoned::default();
    let mut rng = Rng(77);
    for (seed, plan) in [SMALL, MANY, FULL, LARGE].iter().enumerate() {
        let written = Written::new(plan, 20 + seed as u64);
        let [steps, events] = [&b"M"[..], b"E"].map(|letters| written.history.lines_of(letters));
        for _ in 0..5 {
            let lines = [
                rng.pick(&steps),
                rng.pick(&events),
                written.history.lines.len(),
            ];
            for line in lines {
                reckoned.ask(&written, line, &mut rng);
            }
        }
    }
    println!("{reckoned:?}");
    assert!(reckoned.hits >= 400, "{reckoned:?}");
    assert!(reckoned.of_parts >= 100, "{reckoned:?}");
    assert!(reckoned.outside >= 20, "{reckoned:?}");
    assert!(reckoned.unlisted >= 100, "{reckoned:?}");
    assert!(reckoned.left_out >= 3, "{reckoned:?}");
    assert!(reckoned.open >= 3, "{reckoned:?}");
}

/// The ledger agrees wherever it is asked: `good` looks at the outcome, and the text says so.
#[test]
fn the_ledger_agrees_at_every_moment() {
    let mut rng = Rng(78);
    let (mut counted, mut uncounted, mut gone) = (0, 0, 0);
    for (seed, plan) in [SMALL, MANY].iter().enumerate() {
        let written = Written::new(plan, 30 + seed as u64);
        for _ in 0..10 {
            let line = rng.below(written.history.lines.len() + 1);
            let long = "x".repeat(65);
            for name in [
                &shown(&rng.pick(&written.history.names)),
                "unknown",
                "",
                &long,
            ] {
                let text = written.at("mean", line, &[name]);
                assert!(text.ends_with(" | ledger: same\n"), "{text}");
                counted += usize::from(text.contains(": mean "));
                uncounted += usize::from(text.contains(": refused 15: "));
                assert_eq!(
                    text.contains(": refused 4: "),
                    name.is_empty() || name == long
                );
            }
            for places in ["0", "1", "32", "33"] {
                let name = shown(&rng.pick(&written.history.names));
                let options = stretch(&written, line, &mut rng);
                let mut words = vec![places, &name, "unknown"];
                words.extend(options.iter().map(|word| &word[..]));
                let text = written.at("query", line, &words);
                let first = text.lines().next().expect("an answer");
                assert!(first.ends_with(" | ledger: same"), "{text}");
                assert_eq!(
                    first.contains("refused 14: "),
                    places == "0" || places == "33"
                );
            }
            for window in 1..=written.windows(line) + 1 {
                let text = written.at("where", line, &[&window.to_string()]);
                assert!(text.ends_with(": same\n"), "{text}");
                gone += usize::from(text.ends_with(" is not live: same\n"));
            }
        }
    }
    println!("means {counted}, none {uncounted}, windows not live {gone}");
    assert!(counted >= 8 && uncounted >= 12 && gone >= 50);
}

/// The number that stands behind these words.
fn number_behind(text: &str, words: &str) -> usize {
    let (_, rest) = text.split_once(words).unwrap_or_else(|| panic!("{text}"));
    let digits: String = rest.chars().take_while(char::is_ascii_digit).collect();
    digits.parse().expect("a number")
}

/// Blocks of finished partitions and entries of the register, as a moment is shown.
fn shown_at(file: &str, line: usize, blocks: &str) -> [usize; 2] {
    let text = good(&["at", &format!("{file}:{line}"), "--blocks", blocks]);
    [
        number_behind(&text, &format!("\nblocks {blocks}: ")),
        number_behind(&text, "\nregister: "),
    ]
}

/// The first line past some that `run` shows as refused, and with which number.
fn first_refused(text: &str, past: usize) -> Option<(usize, usize)> {
    let lines = text.lines().filter_map(|line| {
        let (number, rest) = line.trim_start().split_once("  ")?;
        let number: usize = number.parse().ok()?;
        let is_refused = rest.contains(" -> refused ");
        (number > past && is_refused).then(|| (number, number_behind(rest, " -> refused ")))
    });
    lines.into_iter().next()
}

/// Lines of some windows of a history's identifiers, now and then with one that is none.
fn planned(history: &History, rng: &mut Rng) -> Vec<Vec<u8>> {
    let mut lines = Vec::new();
    for _ in 0..rng.pick(&[1, 4, 12]) {
        lines.push(b"O".to_vec());
        for _ in 0..rng.below(60) {
            let name = match rng.below(500) {
                0 => vec![b'x'; 65],
                1 => vec![b'z'; 1 + rng.below(64)],
                _ => rng.pick(&history.names),
            };
            lines.push([&b"E "[..], &name].concat());
        }
        lines.push(b"C".to_vec());
    }
    lines
}

/// A plan put behind the session comes to what was told of it: the same line is refused first, and up to there the card has as many finished
/// blocks and the register as many entries.
#[test]
fn forecasts_come_true() {
    let mut rng = Rng(79);
    let (mut ended, mut stopped, mut flushes) = (0, 0, 0);
    for (seed, plan) in [SMALL, MANY, FULL, LARGE].iter().enumerate() {
        let written = Written::new(plan, 50 + seed as u64);
        let (history, folder) = (&written.history, &written.folder);
        let blocks = &history.blocks;
        for _ in 0..12 {
            let line = rng.pick(&history.lines_of(b"C"));
            let lines = planned(history, &mut rng);
            let plan = folder.write("plan.txt", text(&lines));
            let moment = format!("{}:{line}", written.file);
            let told = call(&["forecast", &moment, &plan, "--blocks", blocks]).text;
            assert!(told.ends_with("\nledger: same\n"), "{told}");
            let both = [&history.lines[..line], &lines].concat();
            let both = folder.write("both.txt", text(&both));
            let made = good(&["run", &both, "--blocks", blocks]);
            let stop = told.contains("\nstops at line ").then(|| {
                let place = line + number_behind(&told, "\nstops at line ");
                (place, number_behind(&told, " would be refused "))
            });
            assert_eq!(first_refused(&made, line), stop, "{told}");
            let last = stop.map_or(line + lines.len(), |(place, _)| place - 1);
            let [finished, used] = shown_at(&both, last, blocks);
            assert_eq!(
                number_behind(&told, "\nblocks of finished partitions: "),
                finished
            );
            assert_eq!(number_behind(&told, "\nregister entries used: "), used);
            let flushed = number_behind(&told, "\nflushes: ");
            assert_eq!(finished - shown_at(&both, line, blocks)[0], flushed);
            flushes += flushed;
            match stop {
                Some(_) => stopped += 1,
                None => ended += 1,
            }
        }
    }
    println!("{ended} to their end, {stopped} stopped, {flushes} flushes");
    assert!(ended >= 20 && stopped >= 8 && flushes >= 15);
}

#[test]
fn no_merge_step_changes_the_hits() {
    let mut steps = 0;
    for (seed, plan) in [SMALL, MANY, LARGE].iter().enumerate() {
        let written = Written::new(plan, 40 + seed as u64);
        let mut rng = Rng(seed as u64);
        let name = &written.history.names[rng.below(plan.names)];
        let query = format!("Q 9 {}", shown(name));
        let text = good(&[
            "moments",
            &written.file,
            &query,
            "--blocks",
            &written.history.blocks,
            "--from",
            ["1", "10", "30"][seed],
        ]);
        assert!(text.contains("\nno merge step changed the hits\nledger: same after every line\n"));
        let first = text.lines().next().expect("how often");
        let asked = format!(" asked {} times, ", written.history.lines.len() + 1);
        assert!(first.contains(&asked), "{first}");
        let between = first
            .rsplit(", and ")
            .next()
            .and_then(|rest| rest.split(' ').next());
        steps += between.and_then(|number| number.parse().ok()).unwrap_or(0);
    }
    println!("{steps} times between merge steps");
    assert!(steps >= 1_000, "{steps}");
}

/// What `run` must print for a line, by what the second command program prints.
fn expected(line: &[u8], printed: &str) -> String {
    let mut answers = printed.lines();
    let first = answers.next().expect("a line");
    let refusal = first.strip_prefix('!').map(|number| {
        let refusal = Refusal::of_number(number.parse().expect("a number"));
        format!("refused {number}: {}", refusal.expect("a known one"))
    });
    let words = refusal.unwrap_or_else(|| match line[0] {
        b'O' => format!("window {first}"),
        b'E' => "counted".to_string(),
        b'C' => "closed".to_string(),
        b'R' => "removed".to_string(),
        b'F' => "flushed".to_string(),
        b'M' => "stepped".to_string(),
        _ => {
            let (hits, taken) = first.split_once(' ').expect("two numbers");
            format!(
                "{}, {} taken",
                things(hits, "hit"),
                things(taken, "posting")
            )
        }
    });
    let mut text = format!("{words} | ledger: same\n");
    for hit in answers {
        let (window, score) = hit.split_once(' ').expect("two numbers");
        text += &format!("        window {window}  score {score}\n");
    }
    text
}

fn things(number: &str, thing: &str) -> String {
    let plural = if number == "1" { "" } else { "s" };
    format!("{number} {thing}{plural}")
}

/// What `run` printed without warnings and the note on the card's end.
fn answers_alone(text: &str) -> String {
    let notes = [
        "      warning: ",
        "      the card is at its end: ",
        "      nothing more can be written to it, ",
        "      What was counted is not lost: ",
        "      fresh card, ",
    ];
    let is_answer = |line: &&str| !notes.iter().any(|note| line.starts_with(note));
    text.split_inclusive('\n').filter(is_answer).collect()
}

/// Holds `run` against the second command program; gives how many lines that did not understand.
fn compare_run(lines: &[Vec<u8>], file: &str) -> usize {
    let mut probe = Probe::new();
    let printed: Vec<String> = lines.iter().map(|line| probe.obey(line)).collect();
    let is_comment = |line: &[u8]| line.starts_with(b"#");
    let unknown = lines.iter().zip(&printed);
    let unknown = unknown
        .filter(|(line, told)| *told == "?\n" && !is_comment(line))
        .count();
    let outcome = match unknown {
        0 => Outcome::Good,
        _ => Outcome::Bad,
    };
    let text = answers_alone(&run(file, outcome));
    let mut rest = &text[..];
    for (number, (line, told)) in (1..).zip(lines.iter().zip(&printed)) {
        let echo = format!("{number:4}  {}", shown(line));
        let told = match &told[..] {
            _ if is_comment(line) => "\n".to_string(),
            "?\n" => " -> ? not understood: ".to_string(),
            told => format!(" -> {}", expected(line, told)),
        };
        let after = rest.strip_prefix(&format!("{echo}{told}"));
        rest = after.unwrap_or_else(|| panic!("{echo}{told}was expected, not\n{rest:.300}"));
        if told.ends_with(": ") {
            let (why, after) = rest.split_once('\n').expect("a line");
            assert!(!why.is_empty(), "{echo}");
            rest = after;
        }
    }
    let comments = lines.iter().filter(|line| is_comment(line)).count();
    let understood = things(&(lines.len() - unknown - comments).to_string(), "line");
    let last = format!("{understood} understood, {unknown} not; 0 answers unlike the ledger's\n");
    assert_eq!(rest, last);
    unknown
}

#[test]
fn run_answers_as_the_second_command_program() {
    for seed in 50..58 {
        let written = Written::new(&SMALL, seed);
        assert_eq!(compare_run(&written.history.lines, &written.file), 0);
    }
}

/// Lines that are no commands, or nearly none.
const ODD: [&str; 40] = [
    "",
    " ",
    "O ",
    " O",
    "o",
    "E",
    "E ",
    "E  A",
    "E A B",
    "C 1",
    "R",
    "R x",
    "R 1 2",
    "R 123456",
    "R -1",
    "R +1",
    "F F",
    "M 1",
    "Q",
    "Q ",
    "Q x A",
    "Q 123456 A",
    "Q 1  A",
    "Q 1 A ",
    "X",
    "EA",
    "R1",
    "\r",
    "O\r",
    "C\0",
    "# O",
    "#",
    " #",
    "O # open",
    "Q 5",
    "Q 0 A",
    "Q 33 A",
    "R 00001",
    "R 65536",
    "Q 2 A A",
];

#[test]
fn run_understands_what_the_second_command_program_understands() {
    let (mut unknown, mut met) = (0, 0);
    for seed in 60..68 {
        let history = History::new(&SMALL, seed);
        let mut rng = Rng(seed);
        let mut lines = history.lines;
        for _ in 0..120 {
            let line = match rng.below(5) {
                0 => [&b"E "[..], &vec![b'z'; 509 + rng.below(3)]].concat(),
                1 => vec![b'Q'; 513 + rng.below(9_000)],
                _ => rng.pick(&ODD).as_bytes().to_vec(),
            };
            lines.insert(rng.below(lines.len() + 1), line);
            met += 1;
        }
        let folder = Folder::new();
        let file = folder.write("lines.txt", text(&lines));
        unknown += compare_run(&lines, &file);
    }
    println!("{unknown} of {met} odd lines not understood");
    assert!(unknown >= 500 && unknown < met, "{unknown} of {met}");
}
