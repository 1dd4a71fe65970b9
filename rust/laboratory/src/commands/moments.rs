//! One query asked at every moment.

use super::{Command, Outcome};
use crate::arguments::{Arguments, identifier};
use crate::engines::{Answer, Engine, Second};
use crate::failure::Failure;
use crate::lines::{self, Line, Query};
use crate::progress::Progress;
use crate::session::Session;
use crate::text;
use crate::view::View;
use gemsilver::Stretch;
use std::io::Write;

pub const COMMAND: Command = Command {
    name: "moments",
    usage: "moments FILE QUERY [--against NAME] [--from N] [--to N]",
    summary: "one query asked after every line and between all merge steps",
    help: "
Asks the query, a line as Q 5 LUCKY, on a fresh card, after every line, and, at
each line where a merge is due or in progress, between all merge steps that can
follow there (these are taken on a copy). Prints runs of lines over which
the hits are the same, and whether any merge step changed them. The postings
taken may change with the card while the hits do not. On a long file whose merges
lag behind, that takes minutes.

With --against the wrong engine of that name is asked too, and where its hits are
not ours is printed. With --from and --to the query is asked over the windows from
one number to the other.

Exit status 1 where an answer is not the ledger's, a merge step changed the hits,
or, with --against, the wrong engine's hits are ours at every line.",
    example: "moments lessons/4-between-merge-steps/lines.txt Q 3 LUCKY --blocks 64",
    asks: true,
    obey,
};

fn obey(arguments: &mut Arguments, out: &mut dyn Write) -> Result<Outcome, Failure> {
    let file = arguments.file("FILE")?;
    let asked_for = arguments.line("QUERY")?;
    let Line::Command(lines::Command::Query(query)) = Line::of(&asked_for) else {
        let why = "QUERY is a line that asks for something, as Q 5 LUCKY";
        return Err(Failure::Usage(why.to_string()));
    };
    let query = Query {
        identifiers: query
            .identifiers
            .iter()
            .map(|shown| identifier(shown))
            .collect::<Result<_, _>>()?,
        stretch: arguments.stretch(),
        ..query
    };
    let lines = lines::read(&file)?;
    let mut session = Session::new(arguments.sizes)?;
    let mut wrong = arguments
        .against
        .map(|fault| Second::new(Some(fault), arguments.sizes));
    let mut asked = Asked::default();
    let mut progress = Progress::new("line", lines.len());
    asked.ask(0, &session, wrong.as_ref(), &query, false);
    for (number, line) in (1..).zip(&lines) {
        session.obey_line(line, query.stretch);
        let Line::Command(command) = Line::of(line) else {
            asked.ask(number, &session, wrong.as_ref(), &query, false);
            continue;
        };
        if let Some(wrong) = &mut wrong {
            wrong.obey(&command);
        }
        // After a step come the moments that were passed through from the line before.
        let is_step = command == lines::Command::Step;
        asked.ask(number, &session, wrong.as_ref(), &query, !is_step);
        progress.tell(number);
    }
    drop(progress);
    asked.tell(&query, &lines::passed_over(&lines), out)?;
    if let Some(fault) = arguments.against {
        asked.tell_wrong(fault.name(), out)?;
    }
    let is_told = arguments.against.is_none() || !asked.wrong.is_empty();
    Ok(Outcome::good_if(asked.is_good() && is_told))
}

/// The lines from one to another, with the same hits.
struct Run {
    first: usize,
    last: usize,
    hits: Answer,
    /// The least and the most postings taken.
    taken: (u64, u64),
}

/// What was answered where.
#[derive(Default)]
struct Asked {
    runs: Vec<Run>,
    /// The lines at which the wrong engine's hits were others, and its answers.
    wrong: Vec<(usize, Answer)>,
    /// How often it was asked after a line, and how often between merge steps.
    lines: usize,
    steps: usize,
    /// Lines at which the ledger answered otherwise, and at which a step changed the hits.
    unlike_ledger: Vec<usize>,
    changed: Vec<usize>,
}

impl Asked {
    /// Asks after a line.
    fn ask(
        &mut self,
        line: usize,
        session: &Session,
        wrong: Option<&Second>,
        query: &Query,
        with_steps: bool,
    ) {
        self.lines += 1;
        let answer = session.probe.ask(query);
        if answer != session.ledger.ask(query) {
            self.unlike_ledger.push(line);
        }
        if let Some(wrong) = wrong {
            let other = wrong.ask(query);
            if other.listing() != answer.listing() {
                self.wrong.push((line, other));
            }
        }
        if with_steps && !self.is_kept_by_steps(session, query, &answer) {
            self.changed.push(line);
        }
        self.note(line, &answer);
    }

    /// Whether the hits stay the same between all merge steps that can follow.
    fn is_kept_by_steps(&mut self, session: &Session, query: &Query, answer: &Answer) -> bool {
        if !View::is_due(session.probe.image()) {
            return true;
        }
        let mut probe = session.probe.clone();
        while probe.step().is_ok() {
            self.steps += 1;
            if probe.ask(query).listing() != answer.listing() {
                return false;
            }
        }
        true
    }

    fn note(&mut self, line: usize, answer: &Answer) {
        let taken = match answer {
            Answer::Found { taken, .. } => *taken,
            _ => 0,
        };
        let hits = answer.listing();
        match self.runs.last_mut() {
            Some(run) if run.hits == hits => {
                run.last = line;
                run.taken = (run.taken.0.min(taken), run.taken.1.max(taken));
            }
            _ => self.runs.push(Run {
                first: line,
                last: line,
                hits,
                taken: (taken, taken),
            }),
        }
    }

    fn is_good(&self) -> bool {
        self.unlike_ledger.is_empty() && self.changed.is_empty()
    }

    fn tell(&self, query: &Query, passed: &str, out: &mut dyn Write) -> Result<(), Failure> {
        let Query {
            places,
            identifiers,
            stretch,
        } = query;
        let over = match *stretch {
            Stretch::ALL => String::new(),
            part => format!(" over {}", text::windows(part)),
        };
        let names = identifiers.iter().map(|name| text::identifier(name));
        let names: String = names.map(|name| format!(" {name}")).collect();
        writeln!(
            out,
            "Q {places}{names}{over}: asked {} times, on a fresh card and after every line, and {} times between merge steps{passed}",
            self.lines, self.steps
        )?;
        let lines: Vec<String> = self.runs.iter().map(Run::lines).collect();
        let width = lines.iter().map(String::len).max().unwrap_or(0);
        for (lines, run) in lines.iter().zip(&self.runs) {
            writeln!(out, "{lines:width$}  {}", run.words())?;
        }
        match &self.changed[..] {
            [] => writeln!(out, "no merge step changed the hits")?,
            lines => writeln!(out, "merge steps CHANGED the hits at {}", spans(lines))?,
        }
        match &self.unlike_ledger[..] {
            [] => writeln!(out, "ledger: same after every line")?,
            lines => writeln!(out, "ledger DIFFERS at {}", spans(lines))?,
        }
        Ok(())
    }

    fn tell_wrong(&self, name: &str, out: &mut dyn Write) -> Result<(), Failure> {
        if self.wrong.is_empty() {
            writeln!(out, "{name}: the same hits after every line")?;
        }
        for same in self
            .wrong
            .chunk_by(|one, next| one.0 + 1 == next.0 && one.1.listing() == next.1.listing())
        {
            let (Some(first), Some(last)) = (same.first(), same.last()) else {
                continue;
            };
            let (span, hits) = (span(first.0, last.0), listed(&first.1));
            writeln!(out, "{name}: other hits, {span}  {hits}")?;
        }
        let same = self.lines - self.wrong.len();
        writeln!(out, "{name}: our hits {same} times of {}", self.lines)?;
        Ok(())
    }
}

impl Run {
    fn lines(&self) -> String {
        span(self.first, self.last)
    }

    fn words(&self) -> String {
        let hits = listed(&self.hits);
        match (&self.hits, self.taken) {
            (Answer::Found { .. }, (least, most)) if least == most => {
                format!("{hits}; {} taken", text::count(least, "posting"))
            }
            (Answer::Found { .. }, (least, most)) => {
                format!("{hits}; {least} to {most} postings taken")
            }
            _ => hits,
        }
    }
}

/// The hits of an answer in one line: each window, and its score in brackets.
fn listed(answer: &Answer) -> String {
    match answer {
        Answer::Found { hits, .. } if hits.is_empty() => "no hits".to_string(),
        Answer::Found { hits, .. } => {
            let hits = hits
                .iter()
                .map(|(window, score)| format!("{window} ({score})"));
            format!("windows {}", hits.collect::<Vec<String>>().join(", "))
        }
        _ => answer.words(),
    }
}

/// The lines from one to another in words.
fn span(first: usize, last: usize) -> String {
    if first == last {
        format!("line {first}")
    } else {
        format!("lines {first} to {last}")
    }
}

/// Lines in words, neighbours taken together.
fn spans(lines: &[usize]) -> String {
    let runs = lines.chunk_by(|one, next| one + 1 == *next);
    let spans: Vec<String> = runs.map(|run| span(run[0], run[run.len() - 1])).collect();
    spans.join(", ")
}
