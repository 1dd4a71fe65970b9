//! A moment, and looks at it.

use super::{Command, Outcome};
use crate::arguments::Arguments;
use crate::engines::refused;
use crate::failure::Failure;
use crate::looks::LABEL;
use crate::session::{Moment, Name, judged};
use crate::text::identifier;
use crate::view::View;
use second::ledger::Ledger;
use std::collections::BTreeMap;
use std::io::Write;

pub const COMMAND: Command = Command {
    name: "at",
    usage: "at FILE:LINE [look card | partition N | buffer | register | merge]",
    summary: "the moment after a line: all of it in short, or one thing whole",
    help: "
Goes to the moment after a line and shows it: the windows, the card's map, the
finished partitions oldest first, the buffer, the register, the merge in
progress, and the plain ledger. In the map a cell is PARTITION/LEVEL, `=` the
output of the merge in progress, `.` a free block, `?` a block that is neither.

  look card          the map alone
  look partition N   a partition's postings: identifier, window, signed count
  look buffer        the postings not yet on the card
  look register      the identifiers by number
  look merge         how far the merge is: its step, inputs and output

All of this is display and not proved.",
    example: "at lessons/4-between-merge-steps/lines.txt:700 look merge --blocks 64",
    asks: false,
    obey,
};

pub const OPEN: Command = Command {
    name: "open",
    usage: "open SNAPSHOT [look card | partition N | buffer | register | merge]",
    summary: "a card that comes back from the field, with the same looks",
    help: "
Opens a snapshot: a file with state, card and register of one moment. First the
proved engine judges it, then the same is shown as by `at`, without a ledger,
since a snapshot has no history. The commands where, why, query, mean and forecast
take a snapshot in place of FILE:LINE too.

It is an error where the proved engine refuses state, card or register: it says
with which number, and what is wrong and where as far as the display can tell.",
    example: "open field.snapshot look card",
    asks: false,
    obey: open,
};

fn obey(arguments: &mut Arguments, out: &mut dyn Write) -> Result<Outcome, Failure> {
    let moment = arguments.moment()?;
    show(&moment, arguments, out)
}

/// A file that does not begin as a snapshot is no file of lines here, but a damaged one.
fn open(arguments: &mut Arguments, out: &mut dyn Write) -> Result<Outcome, Failure> {
    let snapshot = Name::Snapshot(arguments.file("SNAPSHOT")?);
    show(&snapshot, arguments, out)
}

/// Shows a moment.
fn show(name: &Name, arguments: &mut Arguments, out: &mut dyn Write) -> Result<Outcome, Failure> {
    let moment = name.find(arguments.sizes)?;
    let look = arguments.look()?;
    arguments.end()?;
    let view = view(&moment)?;
    if let Some(look) = look {
        let text = view.look(look).map_err(|why| moment.failure(why))?;
        moment.begin(out)?;
        write!(out, "{LABEL}\n{text}")?;
        return Ok(Outcome::Good);
    }
    writeln!(out, "{}{}\n{LABEL}", moment.title, moment.passed)?;
    write!(out, "{}", view.overview())?;
    if let Some(ledger) = &moment.ledger {
        show_ledger(ledger, out)?;
    }
    Ok(Outcome::Good)
}

/// The moment read for display, once the proved engine has found nothing wrong with it.
pub fn view(moment: &Moment) -> Result<View, Failure> {
    let view = View::of(&moment.probe);
    let refusal = judged(&moment.probe).err();
    let refusal = refusal.map(|refusal| refused(refusal.number()));
    let wrong: Vec<String> = refusal.into_iter().chain(view.clone().err()).collect();
    match view {
        Ok(view) if wrong.is_empty() => Ok(view),
        _ => Err(moment.failure(wrong.join("; "))),
    }
}

fn show_ledger(ledger: &Ledger, out: &mut dyn Write) -> Result<(), Failure> {
    writeln!(out, "# the plain ledger, not proved")?;
    if ledger.live.is_empty() {
        writeln!(out, "no live window")?;
    }
    for (&window, counts) in &ledger.live {
        let open = match ledger.open == Some(window) {
            true => " (open, no result yet)",
            false => "",
        };
        writeln!(out, "window {window}{open}: {}", counted(counts))?;
    }
    Ok(())
}

/// A window's counts in words.
pub fn counted(counts: &BTreeMap<Vec<u8>, u32>) -> String {
    if counts.is_empty() {
        return "none of them".to_string();
    }
    let counts: Vec<String> = counts
        .iter()
        .map(|(name, count)| format!("{} {count}", identifier(name)))
        .collect();
    counts.join(", ")
}
