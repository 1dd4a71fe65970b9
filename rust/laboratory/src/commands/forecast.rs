//! What a planned session would come to, from a moment on.

use super::at::view;
use super::{Command, Outcome};
use crate::arguments::Arguments;
use crate::engines::refused;
use crate::failure::Failure;
use crate::lines;
use crate::plan::{Plan, warnings};
use crate::session::{Moment, beside};
use crate::text;
use gemsilver::{BLOCK, ENTRY, Forecast};
use second::ledger;
use std::io::Write;

pub const COMMAND: Command = Command {
    name: "forecast",
    usage: "forecast FILE:LINE PLAN",
    summary: "whether a planned session would go through, and what it would take",
    help: "
Asks the proved engine what a planned session would come to if it began at that
moment, with no merge steps between: how many flushes, how many blocks finished
partitions would have, of how many they may have, how many entries of the register
would be used, and the first line of the plan that would be refused, if there is
one. All is counted up to there, and nothing is changed. Below stands the plain
ledger's answer, `same` or what differs.

PLAN is a file of lines too: O, E and C, and comments. Each window is closed before
the next is opened, and the last one too. Any other line, an event or a C outside a
window, or a window left open is an error that names the line. An identifier of
more than 64 bytes is none: the plan stops there.

Where it stops with 10 or 11, merge steps between the windows may make room: to
see it, put the plan's lines behind the session's, with M lines, and `run` them.

Exit status 0 only where the plan goes to its end and the ledger's answer is the
same; else 1. A snapshot that the proved engine refuses as a whole is an error.",
    example: "forecast lessons/4-between-merge-steps/lines.txt:708 lessons/4-between-merge-steps/plan.txt --blocks 64",
    asks: false,
    obey,
};

/// The refusal of a plan's first window where another one is open; no other call of a plan is out of turn.
const OUT_OF_TURN: u32 = 5;
const STILL_OPEN: &str =
    "      a window is open at that moment: a plan can begin after its C, no earlier";

/// What is told of a plan.
#[derive(PartialEq, Eq)]
struct Told {
    flushes: u64,
    blocks: u64,
    entries: u64,
    stop: Option<Stop>,
}

/// Where a plan stops: window and event, from 1, event 0 for the open; and the refusal's number.
#[derive(PartialEq, Eq)]
struct Stop {
    window: usize,
    event: usize,
    number: u32,
}

fn obey(arguments: &mut Arguments, out: &mut dyn Write) -> Result<Outcome, Failure> {
    let moment = arguments.moment()?.find(arguments.sizes)?;
    let path = arguments.file("PLAN")?;
    arguments.end()?;
    let lines = lines::read(&path)?;
    let plan = Plan::of(&lines, &path)?;
    view(&moment)?;
    let (entries, counts) = plan.laid_out();
    let ours = moment.probe.forecast(&entries, &counts);
    let ours = ours.map_err(|refusal| moment.failure(refused(refusal.number())))?;
    let ours = Told::of_engine(ours);
    moment.begin(out)?;
    writeln!(out, "plan: {}", plan.words())?;
    for (number, warning) in warnings(&lines) {
        writeln!(out, "warning: line {number}: {warning}")?;
    }
    show(&ours, &moment, out)?;
    match &ours.stop {
        None => writeln!(out, "goes to its end: no line would be refused")?,
        Some(stop) => {
            let number = plan.line(stop.window, stop.event);
            let line = text::line(&lines[number - 1]);
            writeln!(out, "stops at line {number}, {line}: {}", stop.words())?;
            if stop.number == OUT_OF_TURN {
                writeln!(out, "{STILL_OPEN}")?;
            }
        }
    }
    let is_same = match &moment.ledger {
        Some(ledger) => {
            let ledgers = Told::of_ledger(ledger.forecast(&plan.identifiers()));
            let is_same = ledgers == ours;
            writeln!(out, "{}", beside(is_same, &ledgers.words()))?;
            is_same
        }
        None => {
            writeln!(out, "ledger: none, since a snapshot has no history")?;
            true
        }
    };
    Ok(Outcome::good_if(is_same && ours.stop.is_none()))
}

/// What the plan takes, of how much there is.
fn show(told: &Told, moment: &Moment, out: &mut dyn Write) -> Result<(), Failure> {
    let blocks = moment.probe.card().len() / BLOCK;
    let entries = moment.probe.register().len() / ENTRY;
    writeln!(out, "flushes: {}", told.flushes)?;
    writeln!(
        out,
        "blocks of finished partitions: {} of {}, half of the card",
        told.blocks,
        blocks / 2
    )?;
    writeln!(out, "register entries used: {} of {entries}", told.entries)?;
    Ok(())
}

impl Told {
    fn of_engine(told: Forecast) -> Self {
        Told {
            flushes: told.flushes.into(),
            blocks: told.blocks.into(),
            entries: told.entries.into(),
            stop: told.stop.map(|stop| Stop {
                window: stop.window as usize,
                event: stop.event as usize,
                number: stop.refusal.number(),
            }),
        }
    }

    fn of_ledger(told: ledger::Forecast) -> Self {
        Told {
            flushes: told.flushes as u64,
            blocks: told.blocks as u64,
            entries: told.entries as u64,
            stop: told.stop.map(|stop| Stop {
                window: stop.window,
                event: stop.event,
                number: stop.number.into(),
            }),
        }
    }

    /// All of it in one line.
    fn words(&self) -> String {
        let stop = match &self.stop {
            Some(stop) => stop.words(),
            None => "no line refused".to_string(),
        };
        let Told {
            flushes,
            blocks,
            entries,
            ..
        } = self;
        format!("flushes {flushes}, blocks {blocks}, entries {entries}, {stop}")
    }
}

impl Stop {
    /// The call, and why it is refused.
    fn words(&self) -> String {
        let Stop { window, event, .. } = self;
        let call = match event {
            0 => format!("the open of the plan's window {window}"),
            _ => format!("event {event} of the plan's window {window}"),
        };
        format!("{call} would be {}", refused(self.number))
    }
}

#[cfg(test)]
mod tests {
    use super::{Stop, Told};

    #[test]
    fn an_answer_is_told_in_one_line() {
        let mut told = Told {
            flushes: 1,
            blocks: 2,
            entries: 3,
            stop: None,
        };
        let start = "flushes 1, blocks 2, entries 3, ";
        assert_eq!(told.words(), format!("{start}no line refused"));
        told.stop = Some(Stop {
            window: 4,
            event: 5,
            number: 8,
        });
        let stop = "event 5 of the plan's window 4 would be refused 8: a new identifier finds the register full";
        assert_eq!(told.words(), format!("{start}{stop}"));
    }
}
