//! Every line with its answer, and the plain ledger's beside it.

use super::{Command, Outcome};
use crate::arguments::Arguments;
use crate::engines::Answer;
use crate::failure::Failure;
use crate::lines::{self, Line};
use crate::progress::Progress;
use crate::session::Session;
use crate::text;
use std::io::Write;

pub const COMMAND: Command = Command {
    name: "run",
    usage: "run FILE [--blocks N] [--entries N] [--from N] [--to N]",
    summary: "every line with its answer, and the plain ledger's beside it",
    help: "
Gives the lines to the proved engine and to a plain ledger of live windows (not
proved), on a fresh card. Each line is printed with its number, the engine's
answer in words, and `same` or the ledger's answer where that differs. Warns of
bytes that do not show: a carriage return, a byte order mark, a tab. With --from
and --to every query is asked over the windows from one number to the other.

Exit status 0 only where every line was understood and every answer is the
ledger's; else 1.",
    example: "run lessons/1-full-length/lines.txt",
    asks: true,
    obey,
};

/// Said once, where a flush is refused with 11 and no merge can make room.
const AT_END: &str =
    "      the card is at its end: finished partitions take half of it and no merge is due, so
      nothing more can be written to it, and no call makes room there, a removal neither.
      What was counted is not lost: queries and means go on answering for it. Go on with a
      fresh card, or a larger one.";

/// The line above the answers.
const LABEL: &str = "# answers of the proved engine; the ledger beside them is not proved";

fn obey(arguments: &mut Arguments, out: &mut dyn Write) -> Result<Outcome, Failure> {
    let file = arguments.file("FILE")?;
    arguments.end()?;
    let lines = lines::read(&file)?;
    let mut run = Run {
        session: Session::new(arguments.sizes)?,
        understood: 0,
        unknown: 0,
        different: 0,
        is_at_end: false,
    };
    let mut progress = Progress::new("line", lines.len());
    writeln!(out, "{LABEL}")?;
    let stretch = arguments.stretch();
    if arguments.stretch.is_some() {
        writeln!(out, "# queries are asked over {}", text::windows(stretch))?;
    }
    for (number, line) in (1..).zip(&lines) {
        write!(out, "{number:4}  {}", text::line(line))?;
        match Line::of(line) {
            Line::Comment => writeln!(out)?,
            Line::Unknown(why) => {
                run.unknown += 1;
                writeln!(out, " -> ? not understood: {why}")?;
            }
            Line::Command(command) => run.obey(&command.over(stretch), out)?,
        }
        for warning in lines::warnings(line) {
            writeln!(out, "      warning: {warning}")?;
        }
        progress.tell(number);
    }
    drop(progress);
    writeln!(
        out,
        "{} understood, {} not; {} unlike the ledger's",
        text::count(run.understood, "line"),
        run.unknown,
        text::count(run.different, "answer")
    )?;
    Ok(Outcome::good_if(run.unknown + run.different == 0))
}

/// A session, and how its lines went.
struct Run {
    session: Session,
    understood: usize,
    unknown: usize,
    different: usize,
    is_at_end: bool,
}

impl Run {
    /// Obeys a command, and writes its answer behind the line.
    fn obey(&mut self, command: &lines::Command, out: &mut dyn Write) -> Result<(), Failure> {
        let told = self.session.obey(command);
        writeln!(out, " -> {} | {}", told.ours.words(), told.beside())?;
        for hit in told.ours.hits() {
            writeln!(out, "        {hit}")?;
        }
        self.understood += 1;
        self.different += usize::from(!told.is_same());
        if told.ours == Answer::Refused(11) && !self.is_at_end && self.session.is_at_end() {
            writeln!(out, "{AT_END}")?;
            self.is_at_end = true;
        }
        Ok(())
    }
}
