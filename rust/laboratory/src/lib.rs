//! `gemsilver`, the laboratory's command: brings a moment of a probe back, and shows it.
//!
//! Every answer comes from the proved engine. What only displays, and the plain ledger beside the answers, is not proved and says so.

#![forbid(unsafe_code)]

mod arguments;
mod commands;
mod engines;
mod failure;
mod help;
mod json;
mod lines;
mod looks;
mod places;
mod plan;
mod progress;
mod reckoning;
mod rules;
mod session;
mod text;
mod view;

pub use commands::Outcome;
pub use failure::Failure;

use arguments::Arguments;
use std::ffi::OsString;
use std::io::Write;

/// Obeys the words of a call, the command's name first.
pub fn obey(
    mut words: impl Iterator<Item = OsString>,
    out: &mut impl Write,
) -> Result<Outcome, Failure> {
    let is_help = |word: &OsString| ["--help", "-h", "help"].iter().any(|help| word == help);
    let first = words.next().filter(|word| !is_help(word));
    // `help NAME` is `NAME --help`.
    let wants_help = first.is_none();
    let Some(name) = first.or_else(|| words.next()) else {
        return help::all(out);
    };
    let Some(command) = name.to_str().and_then(commands::named) else {
        let name = text::line(name.as_encoded_bytes());
        return Err(Failure::Usage(format!("no such command: {name}")));
    };
    let mut arguments = Arguments::of(words)?;
    if wants_help || arguments.wants_help {
        return help::one(command, out);
    }
    if arguments.stretch.is_some() && !command.asks {
        let why = format!(
            "{} asks no query: it takes no --from and --to",
            command.name
        );
        return Err(Failure::Usage(why));
    }
    (command.obey)(&mut arguments, out)
}

/// The example of each command's help, for the tests that run them.
pub fn examples() -> impl Iterator<Item = &'static str> {
    commands::ALL.iter().map(|command| command.example)
}
