//! One page with every moment.

use super::{Command, Outcome};
use crate::arguments::Arguments;
use crate::engines::{Answer, Engine};
use crate::failure::Failure;
use crate::json::{list, object, string};
use crate::lines::{self, Line, Query};
use crate::progress::Progress;
use crate::reckoning::{Product, Rarity, Reckoning};
use crate::session::{Session, Told};
use crate::text;
use crate::view::{Merge, Owner, Partition, Posting, View, span};
use gemsilver::Stretch;
use second::ledger::Ledger;
use std::collections::BTreeMap;
use std::io::Write;

pub const COMMAND: Command = Command {
    name: "page",
    usage: "page FILE [--from N] [--to N] > x.html",
    summary: "one page with a slider over the lines, for any browser",
    help: "
Writes one file of HTML that needs no network: a slider over the lines (arrow
keys too), the card's map, the list of partitions, buffer, ledger, the query's
answer with its reckoning, and a window picked by a click, shown wherever its
counts lie. The answers on it are the proved engine's; the rest is display and
not proved. It can be printed. With --from and --to every query is asked over the
windows from one number to the other, and partitions that are passed over for
that are marked.",
    example: "page lessons/4-between-merge-steps/lines.txt --blocks 64 > lesson.html",
    asks: true,
    obey,
};

/// The page without its data.
const TEMPLATE: &str = include_str!("../page.html");
/// Where the data go.
const PLACE: &str = "/*DATA*/null";

fn obey(arguments: &mut Arguments, out: &mut dyn Write) -> Result<Outcome, Failure> {
    let file = arguments.file("FILE")?;
    arguments.end()?;
    let lines = lines::read(&file)?;
    let mut session = Session::new(arguments.sizes)?;
    let stretch = arguments.stretch();
    let mut recorder = Recorder::new(&lines, stretch);
    let mut progress = Progress::new("line", lines.len());
    let mut moments = vec![recorder.moment(&session, None, None)?];
    for (number, line) in (1..).zip(&lines) {
        let told = session.obey_line(line, stretch);
        moments.push(recorder.moment(&session, Some(line), told.as_ref())?);
        progress.tell(number);
    }
    drop(progress);
    let names = session
        .ledger
        .known
        .iter()
        .map(|name| text::identifier(name));
    let data = object([
        ("file", string(&file.display().to_string())),
        ("blocks", arguments.sizes.blocks.to_string()),
        ("entries", arguments.sizes.entries.to_string()),
        (
            "stretch",
            arguments.stretch.map_or("null".to_string(), |stretch| {
                list([stretch.first, stretch.last])
            }),
        ),
        ("names", list(names.map(|name| string(&name)))),
        ("partitions", list(recorder.partitions)),
        (
            "queries",
            list(recorder.queries.iter().map(|(line, _)| string(line))),
        ),
        ("moments", list(moments)),
    ]);
    let (before, after) = TEMPLATE.split_once(PLACE).unwrap_or((TEMPLATE, ""));
    write!(out, "{before}{data}{after}")?;
    Ok(Outcome::Good)
}

/// A window's counts by identifier number.
type Counts = Vec<(usize, u32)>;

/// What was last written of a query.
#[derive(Clone, Default)]
struct Asked {
    /// The hits and N when it was last reckoned.
    known: Option<(Answer, u32)>,
    text: String,
}

/// Writes down each moment as what has changed since the one before.
struct Recorder {
    /// The different queries of the file, each with its line.
    queries: Vec<(String, Query)>,
    /// Every partition that ever stood on the card.
    partitions: Vec<String>,
    /// Those of the moment before, with their places in that list; the output of a merge in progress, as it will stand, comes last.
    standing: Vec<(usize, Partition)>,
    buffer: BTreeMap<(usize, u32), i32>,
    ledger: BTreeMap<u32, Counts>,
    answers: Vec<Asked>,
    /// The last value of each other field.
    fields: BTreeMap<&'static str, String>,
}

impl Recorder {
    fn new(lines: &[Vec<u8>], stretch: Stretch) -> Self {
        let mut queries: Vec<(String, Query)> = Vec::new();
        for line in lines {
            let shown = text::line(line);
            if let Line::Command(lines::Command::Query(query)) = Line::of(line)
                && !queries.iter().any(|(other, _)| *other == shown)
            {
                queries.push((shown, Query { stretch, ..query }));
            }
        }
        Recorder {
            answers: vec![Asked::default(); queries.len()],
            queries,
            partitions: Vec::new(),
            standing: Vec::new(),
            buffer: BTreeMap::new(),
            ledger: BTreeMap::new(),
            fields: BTreeMap::new(),
        }
    }

    /// The moment after a line, or a fresh card's.
    fn moment(
        &mut self,
        session: &Session,
        line: Option<&[u8]>,
        told: Option<&Told>,
    ) -> Result<String, Failure> {
        let view = View::of(&session.probe).map_err(Failure::Input)?;
        let said = line.map_or("fresh card".to_string(), |line| answer(line, told));
        let line = line.unwrap_or_default();
        let mut fields = vec![
            ("line", string(&text::line(line))),
            ("answer", string(&said)),
        ];
        if let Some(told) = told {
            fields.push(("same", told.is_same().to_string()));
        }
        if let Some(told) = told.filter(|told| !told.is_same()) {
            fields.push(("ledgerSays", string(&told.ledgers.whole())));
        }
        let notes = notes(session, line, told);
        if !notes.is_empty() {
            fields.push(("notes", list(notes.iter().map(|note| string(note)))));
        }
        fields.extend(self.buffer_changes(&view));
        fields.extend(self.ledger_changes(session, line));
        fields.extend(self.answer_changes(session, &view));
        for (name, value) in self.values(&view) {
            if self.fields.get(name) != Some(&value) {
                self.fields.insert(name, value.clone());
                fields.push((name, value));
            }
        }
        Ok(object(fields))
    }

    /// The fields that are written whole where they change.
    fn values(&mut self, view: &View) -> [(&'static str, String); 6] {
        let places = self.places(view);
        let (merging, output) = (view.merge.as_ref(), places.get(view.partitions.len()));
        let other = (0..view.owners.len()).filter(|&block| view.owners[block] == Owner::Other);
        [
            ("windows", windows(view)),
            ("used", view.names.len().to_string()),
            ("parts", list(&places[..view.partitions.len()])),
            ("taken", view.taken.to_string()),
            (
                "merge",
                merging.map_or("null".to_string(), |it| merge(it, output)),
            ),
            ("other", list(other)),
        ]
    }

    /// The places in the list of all of the finished partitions and, last, of what is being merged; new ones are added to it.
    fn places(&mut self, view: &View) -> Vec<usize> {
        let output = view.merge.as_ref().filter(|merge| !merge.blocks.is_empty());
        let output = output.map(|merge| {
            let (lowest, highest) = span(&merge.result);
            Partition {
                level: merge.into,
                bytes: merge.bytes,
                lowest,
                highest,
                blocks: merge.blocks.clone(),
                postings: merge.result.clone(),
            }
        });
        let mut standing = Vec::new();
        for stored in view.partitions.iter().chain(&output) {
            let known = self.standing.iter().find(|(_, other)| other == stored);
            let place = known.map_or(self.partitions.len(), |(place, _)| *place);
            if place == self.partitions.len() {
                self.partitions.push(partition(stored));
            }
            standing.push((place, stored.clone()));
        }
        self.standing = standing;
        self.standing.iter().map(|(place, _)| *place).collect()
    }

    fn buffer_changes(&mut self, view: &View) -> Vec<(&'static str, String)> {
        let now: BTreeMap<(usize, u32), i32> = view
            .buffer
            .iter()
            .map(|posting| ((posting.id, posting.window), posting.count))
            .collect();
        let is_cleared = self.buffer.keys().all(|pair| !now.contains_key(pair));
        let is_cleared = is_cleared && !self.buffer.is_empty();
        let gone = self.buffer.keys().filter(|pair| !now.contains_key(*pair));
        let gone = gone.map(|pair| (pair, 0)).filter(|_| !is_cleared);
        let new = now
            .iter()
            .filter(|(pair, count)| self.buffer.get(*pair) != Some(*count));
        let changes: Vec<String> = gone
            .chain(new.map(|(pair, count)| (pair, *count)))
            .map(|(&(id, window), count)| format!("[{id},{window},{count}]"))
            .collect();
        let mut fields = Vec::new();
        if is_cleared {
            fields.push(("cleared", true.to_string()));
        }
        if !changes.is_empty() || self.fields.is_empty() {
            fields.push(("buffer", list(changes)));
        }
        self.buffer = now;
        fields
    }

    /// A line changes the counts of one window at most: the open one's, or those of the one that it names.
    fn ledger_changes(&mut self, session: &Session, line: &[u8]) -> Option<(&'static str, String)> {
        let ledger = &session.ledger;
        let named = match Line::of(line) {
            Line::Command(lines::Command::Remove(window)) => Some(window),
            _ => ledger.open,
        };
        let mut changes = Vec::new();
        if let Some(window) = named {
            let now = ledger
                .live
                .get(&window)
                .map(|counts| numbered(ledger, counts));
            if self.ledger.get(&window) != now.as_ref() {
                let counts = now
                    .as_ref()
                    .map(|counts| list(counts.iter().map(|(id, count)| format!("[{id},{count}]"))));
                let counts = counts.unwrap_or("null".to_string());
                changes.push(format!("[{window},{counts}]"));
            }
            match now {
                Some(counts) => self.ledger.insert(window, counts),
                None => self.ledger.remove(&window),
            };
        }
        let is_written = !changes.is_empty() || self.fields.is_empty();
        is_written.then(|| ("ledger", list(changes)))
    }

    fn answer_changes(&mut self, session: &Session, view: &View) -> Option<(&'static str, String)> {
        let mut changes = Vec::new();
        for (place, (_, query)) in self.queries.iter().enumerate() {
            let asked = &mut self.answers[place];
            let answer = session.probe.ask(query);
            // A close or a removal moves N, and nothing else moves what a reckoning is made of.
            let known = (answer.listing(), view.live);
            let text = string(&answer.words());
            let mut fields = Vec::new();
            if asked.known.as_ref() != Some(&known) {
                fields = reckoned(&answer, view, query);
                asked.known = Some(known);
            }
            if asked.text != text {
                fields.push(("text", text.clone()));
                asked.text = text;
            }
            if !fields.is_empty() {
                changes.push((place.to_string(), object(fields)));
            }
        }
        let is_written = !changes.is_empty() || self.fields.is_empty();
        let fields = changes
            .iter()
            .map(|(place, change)| (&place[..], change.clone()));
        is_written.then(|| ("answers", object(fields)))
    }
}

/// A window's counts by identifier number.
fn numbered(ledger: &Ledger, counts: &BTreeMap<Vec<u8>, u32>) -> Counts {
    let counts = counts.iter();
    let mut counts: Counts = counts
        .filter_map(|(name, &count)| Some((ledger.number(name)?, count)))
        .collect();
    counts.sort_unstable();
    counts
}

/// What is said of a line.
fn answer(line: &[u8], told: Option<&Told>) -> String {
    match (told, Line::of(line)) {
        (Some(told), _) => told.ours.words(),
        (None, Line::Comment) => "comment".to_string(),
        (None, Line::Unknown(why)) => format!("? not understood: {why}"),
        (None, Line::Command(_)) => String::new(),
    }
}

/// Warnings of a line, and that the card is at its end.
fn notes(session: &Session, line: &[u8], told: Option<&Told>) -> Vec<String> {
    let mut notes: Vec<String> = lines::warnings(line)
        .into_iter()
        .map(String::from)
        .collect();
    if told.is_some_and(|told| told.ours == Answer::Refused(11)) && session.is_at_end() {
        notes.push("the card is at its end: no call makes room on it any more".to_string());
    }
    notes
}

fn windows(view: &View) -> String {
    object([
        ("last", view.last.to_string()),
        ("live", view.live.to_string()),
        ("open", view.open.to_string()),
        ("events", view.events.to_string()),
    ])
}

fn partition(stored: &Partition) -> String {
    let posting = |posting: &Posting| {
        let Posting { id, window, count } = posting;
        format!("[{id},{window},{count}]")
    };
    object([
        ("level", stored.level.to_string()),
        ("bytes", stored.bytes.to_string()),
        ("windows", list([stored.lowest, stored.highest])),
        ("blocks", list(&stored.blocks)),
        ("postings", list(stored.postings.iter().map(posting))),
    ])
}

fn merge(merge: &Merge, output: Option<&usize>) -> String {
    object([
        ("step", merge.step.to_string()),
        ("steps", merge.steps.to_string()),
        ("level", merge.level.to_string()),
        ("into", merge.into.to_string()),
        ("first", (merge.inputs.start + 1).to_string()),
        ("inputs", merge.inputs.len().to_string()),
        ("taken", merge.taken.to_string()),
        ("pairs", merge.pairs.to_string()),
        ("blocks", list(&merge.blocks)),
        ("bytes", merge.bytes.to_string()),
        ("written", merge.written.to_string()),
        ("postings", merge.result.len().to_string()),
        (
            "key",
            output.map_or("null".to_string(), |place| place.to_string()),
        ),
    ])
}

/// What a query's hits are reckoned from; nothing where it is refused.
fn reckoned(answer: &Answer, view: &View, query: &Query) -> Vec<(&'static str, String)> {
    let Answer::Found { hits, .. } = answer else {
        let none = || list::<String>([]);
        return vec![("ids", none()), ("hits", none())];
    };
    let reckoning = Reckoning::of(view, &query.identifiers, query.stretch);
    let hit = |&(window, score): &(u32, u32)| {
        let products = reckoning.products(window).into_iter().map(product);
        object([
            ("window", window.to_string()),
            ("score", score.to_string()),
            ("counts", list(products)),
        ])
    };
    vec![
        ("n", reckoning.live.to_string()),
        ("sn", reckoning.sixteenths.to_string()),
        ("ids", list(reckoning.rarities.iter().map(rarity))),
        ("hits", list(hits.iter().map(hit))),
    ]
}

fn rarity(rarity: &Rarity) -> String {
    object([
        ("name", string(&text::identifier(&rarity.identifier))),
        ("f", rarity.windows.to_string()),
        ("sf", rarity.sixteenths.to_string()),
        ("weight", rarity.weight.to_string()),
    ])
}

fn product(product: Option<Product>) -> String {
    match product {
        Some(Product {
            count,
            weight,
            product,
        }) => format!("[{count},{weight},{product}]"),
        None => "null".to_string(),
    }
}
