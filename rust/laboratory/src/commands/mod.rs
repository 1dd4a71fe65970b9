//! The commands, a file each.

mod against;
mod at;
mod forecast;
mod mean;
mod moments;
mod page;
mod query;
mod run;
mod save;
mod whereabouts;
mod why;

use crate::arguments::Arguments;
use crate::failure::Failure;
use std::io::Write;

/// How a command ended that could do its work.
#[derive(Clone, Copy, PartialEq, Eq, Debug)]
pub enum Outcome {
    /// All is as it should be: exit status 0.
    Good,
    /// It found something that its user must know: exit status 1.
    Bad,
}

impl Outcome {
    fn good_if(is_good: bool) -> Outcome {
        if is_good { Outcome::Good } else { Outcome::Bad }
    }
}

/// A command: its name, what it is called with, what it does, an example, whether it asks queries, which a stretch is for, and the work.
pub struct Command {
    pub name: &'static str,
    pub usage: &'static str,
    pub summary: &'static str,
    pub help: &'static str,
    pub example: &'static str,
    pub asks: bool,
    pub obey: fn(&mut Arguments, &mut dyn Write) -> Result<Outcome, Failure>,
}

/// All commands, in the order in which a user meets them.
pub static ALL: [Command; 12] = [
    run::COMMAND,
    at::COMMAND,
    at::OPEN,
    whereabouts::COMMAND,
    why::COMMAND,
    query::COMMAND,
    mean::COMMAND,
    forecast::COMMAND,
    moments::COMMAND,
    against::COMMAND,
    page::COMMAND,
    save::COMMAND,
];

/// The command of a name.
pub fn named(name: &str) -> Option<&'static Command> {
    ALL.iter().find(|command| command.name == name)
}
