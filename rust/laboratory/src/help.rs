//! What each command does, with an example.

use crate::commands::{self, Command, Outcome};
use crate::failure::Failure;
use std::io::Write;

/// What holds for all commands.
const START: &str = "\
gemsilver brings a moment of a probe back and shows it. Every answer comes from
the proved engine; what is only displayed is labelled as not proved.

";

const END: &str = "
FILE is a file of lines, as the command program reads them, one command a line:
  O              open a window          R NUMBER           remove a window
  E IDENTIFIER   count an event in it   F                  flush the buffer
  C              close it               M                  take a merge step
  Q PLACES IDENTIFIER..                 find the windows that match best
  # anything     a comment
FILE:LINE is the moment after that line, FILE:0 a fresh card, FILE alone the end.
IDENTIFIERs are written as they are shown: \\xNN for a byte that does not print,
\\\\ for a backslash.

  --blocks N     blocks of the card, 4 to 4096; 16 if not said
  --entries N    entries of the register, 1 to 1024; 64 if not said
  --from N       where a command asks queries: the first and the last window that
  --to N         they are asked over, 0 to 65535; 1 and 65535 if not said
  --help         after a command: more of it, with an example

Exit status: 0; 1 where the command found something wrong, as its help says;
2 where it could not do its work.
";

/// All commands in short.
pub fn all(out: &mut impl Write) -> Result<Outcome, Failure> {
    out.write_all(START.as_bytes())?;
    for command in &commands::ALL {
        let Command { usage, summary, .. } = command;
        writeln!(out, "  gemsilver {usage}\n      {summary}")?;
    }
    out.write_all(END.as_bytes())?;
    Ok(Outcome::Good)
}

/// One command.
pub fn one(command: &Command, out: &mut impl Write) -> Result<Outcome, Failure> {
    writeln!(out, "gemsilver {}\n", command.usage)?;
    writeln!(out, "{}\n", command.help.trim())?;
    writeln!(out, "Example:\n  gemsilver {}", command.example)?;
    Ok(Outcome::Good)
}
