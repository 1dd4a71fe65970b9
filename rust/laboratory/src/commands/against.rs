//! The same lines through a wrong engine.

use super::{Command, Outcome};
use crate::arguments::Arguments;
use crate::engines::{Answer, Engine, Second, Sizes, proved};
use crate::failure::Failure;
use crate::lines::{self, Line};
use crate::progress::Progress;
use crate::session::Session;
use crate::text;
use gemsilver::Stretch;
use second::faults::Fault;
use std::io::Write;

pub const COMMAND: Command = Command {
    name: "against",
    usage: "against NAME|all FILE [--from N] [--to N]",
    summary: "whether the lines tell a wrong engine from ours",
    help: "
Gives the lines to the proved engine and to a wrong one, and tells the first line
at which the wrong one answers otherwise; or that these lines do not tell it
apart. With `all` it is a table that grades a file of test lines. Each wrong
engine is the second engine with one change; a row `unchanged` has none, and no
lines tell that one apart.

With --from and --to every query is asked over the windows from one number to the
other. The last five engines can be told apart by nothing else, so that `all`
tries them only then.

  cut-identifiers     identifiers are cut at sixteen bytes
  added-frequencies   F is added up per partition
  mended-neighbours   that is mended between neighbouring partitions only
  dropped-negatives   a merge drops negative postings
  filled-first        the list is filled before removals are known
  rounded-quotient    rarity is taken from N / F rounded down
  read-output         the open merge's output is read beside its inputs
  forgotten-buffer    queries forget the buffer
  lowest-alone        a partition is passed over by its lowest window alone
  last-list-highest   a partition's highest window is that of its last list
  taken-outside       postings of partitions passed over are taken up
  live-outside        N counts windows outside, too
  frequency-outside   F counts windows outside, too

Exit status 0 where the wrong engine, or each of them, is told apart; else 1.",
    example: "against read-output lessons/4-between-merge-steps/lines.txt --blocks 64",
    asks: true,
    obey,
};

/// The first line that tells an engine apart.
struct Difference {
    line: usize,
    ours: Answer,
    wrong: Answer,
}

fn obey(arguments: &mut Arguments, out: &mut dyn Write) -> Result<Outcome, Failure> {
    let fault = arguments.faults()?;
    let file = arguments.file("FILE")?;
    arguments.end()?;
    let lines = lines::read(&file)?;
    // Refuses sizes out of the limits with a sentence.
    Session::new(arguments.sizes)?;
    let trial = Trial {
        lines: &lines,
        sizes: arguments.sizes,
        stretch: arguments.stretch(),
    };
    if arguments.stretch.is_some() {
        let windows = text::windows(trial.stretch);
        writeln!(out, "# queries are asked over {windows}")?;
    }
    match fault {
        Some(fault) => one(fault, &trial, out),
        None => all(&trial, arguments.stretch.is_some(), out),
    }
}

/// What engines are given: lines, the sizes of their buffers, and the windows that queries are asked over.
struct Trial<'a> {
    lines: &'a [Vec<u8>],
    sizes: Sizes,
    stretch: Stretch,
}

fn one(fault: Fault, trial: &Trial, out: &mut dyn Write) -> Result<Outcome, Failure> {
    let lines = trial.lines;
    writeln!(out, "{}: {}", fault.name(), fault.sentence())?;
    let Some(found) = trial.difference(Some(fault))? else {
        let passed = lines::passed_over(lines);
        writeln!(out, "{}{passed}", verdict(None, lines))?;
        return Ok(Outcome::Bad);
    };
    let line = text::line(&lines[found.line - 1]);
    writeln!(out, "told apart by line {}: {line}", found.line)?;
    for (who, answer) in [("ours", &found.ours), ("wrong", &found.wrong)] {
        writeln!(out, "  {who:5} {}", answer.words())?;
        for hit in answer.hits() {
            writeln!(out, "          {hit}")?;
        }
    }
    Ok(Outcome::Good)
}

/// The engines that need a stretch to be told apart are tried where there is one.
fn all(trial: &Trial, has_stretch: bool, out: &mut dyn Write) -> Result<Outcome, Failure> {
    let lines = trial.lines;
    let faults = Fault::ALL.into_iter();
    let faults: Vec<Fault> = faults
        .filter(|fault| has_stretch || !fault.needs_stretch())
        .collect();
    let mut told = 0;
    for &fault in &faults {
        let found = trial.difference(Some(fault))?;
        told += usize::from(found.is_some());
        writeln!(out, "{:18} {}", fault.name(), verdict(found, lines))?;
    }
    let unchanged = trial.difference(None)?;
    let is_right = unchanged.is_none();
    writeln!(out, "{:18} {}", "unchanged", verdict(unchanged, lines))?;
    writeln!(
        out,
        "{told} of {} wrong engines told apart{}",
        faults.len(),
        lines::passed_over(lines)
    )?;
    Ok(Outcome::good_if(is_right && told == faults.len()))
}

fn verdict(found: Option<Difference>, lines: &[Vec<u8>]) -> String {
    match found {
        Some(found) => {
            let line = text::line(&lines[found.line - 1]);
            format!("told apart by line {}: {line}", found.line)
        }
        None => "these lines do not tell it apart".to_string(),
    }
}

impl Trial<'_> {
    /// The first line at which the second engine, with a fault or without, answers otherwise than the proved one.
    fn difference(&self, fault: Option<Fault>) -> Result<Option<Difference>, Failure> {
        let mut right = proved(self.sizes).map_err(|why| Failure::Usage(why.to_string()))?;
        let mut wrong = Second::new(fault, self.sizes);
        let mut progress = Progress::new("line", self.lines.len());
        for (line, bytes) in (1..).zip(self.lines) {
            progress.tell(line);
            let Line::Command(command) = Line::of(bytes) else {
                continue;
            };
            let command = command.over(self.stretch);
            let (ours, wrong) = (right.obey(&command), wrong.obey(&command));
            if ours != wrong {
                return Ok(Some(Difference { line, ours, wrong }));
            }
        }
        Ok(None)
    }
}
