//! The data of the page, replayed, are what the looks, the ledger and the queries say.
//!
//! What the page makes of its data is seen in a browser, by tools/test-page; that the data are right is seen here.

use crate::calls::{call, good};
use crate::folder::Folder;
use crate::history::{FULL, History, MANY, Plan, SMALL};
use crate::json::Json;
use std::collections::BTreeMap;

/// The page's data, with options more.
fn data(file: &str, blocks: &str, options: &[&str]) -> Json {
    let page = good(&[&["page", file, "--blocks", blocks][..], options].concat());
    let start = page.find("const DATA = ").expect("the data") + "const DATA = ".len();
    let end = start + page[start..].find(";\n").expect("their end");
    Json::of(&page[start..end])
}

/// What the page knows at one moment.
#[derive(Default)]
struct Replayed {
    /// The fields that are written whole, as last written.
    fields: BTreeMap<String, Json>,
    buffer: BTreeMap<(i64, i64), i64>,
    ledger: BTreeMap<i64, Vec<Vec<i64>>>,
    answers: BTreeMap<usize, BTreeMap<String, Json>>,
}

impl Replayed {
    /// Goes on to the next moment.
    fn next(&mut self, moment: &Json) {
        let Json::Object(fields) = moment else {
            panic!("no object: {moment:?}");
        };
        if fields.contains_key("cleared") {
            self.buffer.clear();
        }
        for (name, value) in fields {
            match &name[..] {
                "buffer" => value.list().iter().for_each(|change| self.count(change)),
                "ledger" => value.list().iter().for_each(|change| self.window(change)),
                "answers" => self.answer(value),
                _ => {
                    self.fields.insert(name.clone(), value.clone());
                }
            }
        }
    }

    fn count(&mut self, change: &Json) {
        let [id, window, count] = change.numbers()[..] else {
            panic!("no posting: {change:?}");
        };
        // Windows fall within an identifier.
        match count {
            0 => self.buffer.remove(&(id, -window)),
            _ => self.buffer.insert((id, -window), count),
        };
    }

    fn window(&mut self, change: &Json) {
        let [window, counts] = change.list() else {
            panic!("no window: {change:?}");
        };
        match counts {
            Json::Null => self.ledger.remove(&window.number()),
            counts => {
                let counts = counts.list().iter().map(Json::numbers).collect();
                self.ledger.insert(window.number(), counts)
            }
        };
    }

    fn answer(&mut self, changes: &Json) {
        let Json::Object(changes) = changes else {
            panic!("no object: {changes:?}");
        };
        for (place, answer) in changes {
            let place = place.parse().expect("a place in the list of queries");
            let Json::Object(changes) = answer else {
                panic!("no object: {answer:?}");
            };
            self.answers
                .entry(place)
                .or_default()
                .extend(changes.clone());
        }
    }

    fn parts<'a>(&self, data: &'a Json) -> Vec<&'a Json> {
        let partitions = data.field("partitions").list();
        let keys = self.fields["parts"].numbers();
        keys.iter().map(|&key| &partitions[key as usize]).collect()
    }

    /// The card's map, as `look card` prints it.
    fn card(&self, data: &Json) -> String {
        let mut cells = vec![".".to_string(); data.field("blocks").number() as usize];
        for block in self.fields["other"].numbers() {
            cells[block as usize] = "?".to_string();
        }
        for (place, part) in (1..).zip(self.parts(data)) {
            for block in part.field("blocks").numbers() {
                cells[block as usize] = format!("{place}/{}", part.field("level").number());
            }
        }
        if let Some(blocks) = self.fields["merge"].maybe("blocks") {
            for block in blocks.numbers() {
                cells[block as usize] = "=".to_string();
            }
        }
        let count =
            |is_such: &dyn Fn(&String) -> bool| cells.iter().filter(|it| is_such(it)).count();
        let mut text = format!(
            "blocks {}: {} finished, {} output, {} free, {} other; last taken {}\n",
            cells.len(),
            count(&|cell| cell.contains('/')),
            count(&|cell| cell == "="),
            count(&|cell| cell == "."),
            count(&|cell| cell == "?"),
            self.fields["taken"].number()
        );
        for (row, cells) in cells.chunks(16).enumerate() {
            let cells: Vec<String> = cells.iter().map(|cell| format!("{cell:4}")).collect();
            text += format!("{:4}  {}", 16 * row, cells.join(" ")).trim_end();
            text += "\n";
        }
        text
    }

    /// The buffer's postings, as they stand in `look buffer`.
    fn buffered(&self, data: &Json) -> String {
        let postings = self.buffer.iter();
        postings_text(
            data,
            postings.map(|(&(id, window), &count)| vec![id, -window, count]),
        )
    }

    fn register(&self, data: &Json) -> String {
        let used = self.fields["used"].number();
        let names = data.field("names").list()[..used as usize].iter();
        let mut text = format!(
            "register: {used} of {} entries\n",
            data.field("entries").number()
        );
        for (number, name) in names.enumerate() {
            text += &format!("{number:4}  {}\n", name.text());
        }
        text
    }

    /// The first two lines of a merge in progress, as `look merge` prints them.
    fn merge(&self) -> Option<String> {
        let merge = &self.fields["merge"];
        let number = |name| merge.maybe(name).map(Json::number);
        let first = number("first")?;
        Some(format!(
            "merge: step {} of {}, level {} into {}\ninputs: partitions {first} to {}, {} of {} pairs taken\n",
            number("step")?,
            number("steps")?,
            number("level")?,
            number("into")?,
            first + number("inputs")? - 1,
            number("taken")?,
            number("pairs")?
        ))
    }

    /// What a merge in progress has written: identifier, window and count of each posting.
    fn written<'a>(&self, data: &'a Json) -> Vec<(&'a str, i64, i64)> {
        let merge = &self.fields["merge"];
        let Some(Json::Number(key)) = merge.maybe("key") else {
            return Vec::new();
        };
        let names = data.field("names").list();
        let postings = data.field("partitions").list()[*key as usize].field("postings");
        let postings = postings.list().iter().map(Json::numbers);
        let postings = postings.take(merge.field("written").number() as usize);
        postings
            .map(|posting| (names[posting[0] as usize].text(), posting[1], posting[2]))
            .collect()
    }

    /// The live windows, as the ledger at the end of `at` has them but for the order of identifiers.
    fn live(&self, data: &Json) -> BTreeMap<i64, Vec<String>> {
        let names = data.field("names").list();
        let counted = |pair: &Vec<i64>| format!("{} {}", names[pair[0] as usize].text(), pair[1]);
        let window = |(&window, counts): (&i64, &Vec<Vec<i64>>)| {
            let mut counts: Vec<String> = counts.iter().map(counted).collect();
            counts.sort();
            (window, counts)
        };
        self.ledger.iter().map(window).collect()
    }
}

/// A line for each posting, as the looks have them.
fn postings_text(data: &Json, postings: impl Iterator<Item = Vec<i64>>) -> String {
    let postings: Vec<Vec<i64>> = postings.collect();
    let name = |posting: &Vec<i64>| data.field("names").list()[posting[0] as usize].text();
    let width = postings.iter().map(|posting| name(posting).len()).max();
    let width = width.unwrap_or(0);
    let line = |posting: &Vec<i64>| {
        let (window, count) = (posting[1], posting[2]);
        format!("{:width$}  window {window}  {count:+}\n", name(posting))
    };
    postings.iter().map(line).collect()
}

/// The ledger that `at` prints last.
fn ledger(overview: &str) -> BTreeMap<i64, Vec<String>> {
    let (_, ledger) = overview
        .split_once("# the plain ledger, not proved\n")
        .expect("a ledger");
    let windows = ledger
        .lines()
        .filter_map(|line| line.strip_prefix("window "));
    let window = |line: &str| {
        let (number, counts) = line.split_once(": ").expect("a window and its counts");
        let number = number.split(' ').next().expect("a number");
        // An identifier has no space, but it may be a comma.
        let words: Vec<&str> = counts.split(' ').collect();
        let pairs = words.chunks_exact(2);
        let counted = |pair: &[&str]| format!("{} {}", pair[0], pair[1].trim_end_matches(','));
        let mut counts: Vec<String> = pairs.map(counted).collect();
        counts.sort();
        (number.parse().expect("a number"), counts)
    };
    windows.map(window).collect()
}

/// Compares what a merge has written of its first window with what `where` lists.
fn compare_written(moment: &str, blocks: &str, written: &[(&str, i64, i64)]) {
    let Some(&(_, window, _)) = written.first() else {
        return;
    };
    let text = good(&["where", moment, &window.to_string(), "--blocks", blocks]);
    let listed: Vec<Vec<&str>> = text
        .lines()
        .filter(|line| line.contains("  output, not read  "))
        .map(|line| line.split_whitespace().collect())
        .collect();
    let of_window = written.iter().filter(|posting| posting.1 == window);
    let expected: Vec<(&str, String)> = of_window
        .map(|(name, _, count)| (*name, format!("{count:+}")))
        .collect();
    assert_eq!(listed.len(), expected.len(), "{moment}: window {window}");
    for (words, (name, count)) in listed.iter().zip(&expected) {
        assert_eq!((words[0], words.last()), (*name, Some(&&count[..])));
    }
}

/// Compares a moment with what the command prints of it, and tells whether a merge was in progress.
fn compare(file: &str, blocks: &str, line: usize, data: &Json, replayed: &Replayed) -> bool {
    let moment = format!("{file}:{line}");
    let at = |what: &[&str]| good(&[&["at", &moment][..], what, &["--blocks", blocks]].concat());
    let look = |what: &[&str]| {
        let text = at(&[&["look"][..], what].concat());
        let (_, text) = text.split_once('\n').expect("a label");
        text.to_string()
    };
    assert_eq!(look(&["card"]), replayed.card(data), "{moment}");
    assert_eq!(look(&["register"]), replayed.register(data), "{moment}");
    let buffer = look(&["buffer"]);
    let (_, postings) = buffer.split_once('\n').expect("a line");
    assert_eq!(postings, replayed.buffered(data), "{moment}");
    for (place, part) in (1..).zip(replayed.parts(data)) {
        let stored = look(&["partition", &place.to_string()]);
        let (first, postings) = stored.split_once('\n').expect("a line");
        let [lowest, highest] = part.field("windows").numbers()[..] else {
            panic!("two windows");
        };
        let windows = format!(", windows {lowest} to {highest}, ");
        assert!(first.contains(&windows), "{moment}: {first}");
        let expected = part.field("postings").list().iter().map(Json::numbers);
        assert_eq!(postings, postings_text(data, expected), "{moment}");
    }
    let merge = replayed.merge();
    match &merge {
        Some(lines) => assert!(look(&["merge"]).starts_with(lines), "{moment}: {lines}"),
        None => assert!(look(&["merge"]).starts_with("merge: none"), "{moment}"),
    }
    compare_written(&moment, blocks, &replayed.written(data));
    assert_eq!(ledger(&at(&[])), replayed.live(data), "{moment}");
    merge.is_some()
}

/// Compares the answers of the page at a moment with the command's.
fn compare_answers(
    moment: &str,
    blocks: &str,
    options: &[&str],
    data: &Json,
    replayed: &Replayed,
) -> usize {
    let queries = data.field("queries").list();
    for (place, query) in queries.iter().enumerate() {
        let words: Vec<&str> = query.text().split(' ').skip(1).collect();
        let asked = [
            &["query", moment][..],
            &words,
            &["--blocks", blocks],
            options,
        ]
        .concat();
        let answer = &replayed.answers[&place];
        let mut expected = format!("{} | ledger: same\n", answer["text"].text());
        for hit in answer["hits"].list() {
            let (window, score) = (hit.field("window").number(), hit.field("score").number());
            expected += &format!("  window {window}  score {score}\n");
            let products = hit.field("counts").list().iter();
            let products = products.filter(|product| **product != Json::Null);
            let total: i64 = products.map(|product| product.numbers()[2]).sum();
            assert_eq!(total, score, "{moment}: window {window}");
        }
        // Which partitions are passed over stands below the hits.
        let answered = call(&asked).text;
        let (hits, _) = answered.split_once("# display").unwrap_or((&answered, ""));
        assert_eq!(hits, expected, "{asked:?}");
    }
    queries.len()
}

/// Replays the page of a history, and compares it with the command at some moments.
fn replay(plan: &Plan, seed: u64, every: usize, options: &[&str]) -> (usize, usize) {
    let folder = Folder::new();
    let history = History::new(plan, seed);
    let file = folder.write("lines.txt", history.text());
    let data = data(&file, &history.blocks, options);
    let moments = data.field("moments").list();
    assert_eq!(moments.len(), history.lines.len() + 1);
    let mut replayed = Replayed::default();
    let (mut merging, mut answers) = (0, 0);
    for (line, moment) in moments.iter().enumerate() {
        replayed.next(moment);
        if line > 0 {
            assert_eq!(*moment.field("same"), Json::Flag(true), "line {line}");
        }
        if line % every == every / 2 {
            let is_merging = compare(&file, &history.blocks, line, &data, &replayed);
            merging += usize::from(is_merging);
            let moment = format!("{file}:{line}");
            answers += compare_answers(&moment, &history.blocks, options, &data, &replayed);
        }
    }
    (merging, answers)
}

#[test]
fn replayed_data_are_what_the_command_prints() {
    let (mut merging, mut answers) = (0, 0);
    for (plan, seed, every) in [(&SMALL, 1, 20), (&MANY, 2, 60), (&FULL, 3, 120)] {
        let met = replay(plan, seed, every, &[]);
        merging += met.0;
        answers += met.1;
    }
    assert!(merging >= 5, "{merging} moments with a merge in progress");
    assert!(answers >= 100, "{answers} answers");
}

/// The queries of a page over a part of the windows are answered as the command answers them.
#[test]
fn a_page_is_asked_over_a_stretch() {
    let options = ["--from", "10", "--to", "25"];
    let (_, answers) = replay(&SMALL, 4, 25, &options);
    assert!(answers >= 20, "{answers} answers");
    let folder = Folder::new();
    let file = folder.write("lines.txt", "O\nE A\nC\nQ 1 A\n");
    let stretch = |options: &[&str]| data(&file, "4", options).field("stretch").clone();
    assert_eq!(stretch(&options).numbers(), [10, 25]);
    assert_eq!(stretch(&["--to", "7"]).numbers(), [1, 7]);
    assert_eq!(stretch(&[]), Json::Null);
}
