//! A line on the terminal while something takes long.

use std::io::{IsTerminal, Write, stderr};
use std::time::{Duration, Instant};

/// How long nothing is said.
const QUIET: Duration = Duration::from_secs(2);
/// How often the line is written anew.
const EVERY: Duration = Duration::from_millis(200);

/// Tells how far a run is, on standard error, after two seconds, and only to a terminal.
pub struct Progress {
    what: &'static str,
    total: usize,
    next: Option<Instant>,
    is_shown: bool,
}

impl Progress {
    /// So many things are to be done.
    pub fn new(what: &'static str, total: usize) -> Self {
        Progress {
            what,
            total,
            next: stderr().is_terminal().then(|| Instant::now() + QUIET),
            is_shown: false,
        }
    }

    /// So many are done.
    pub fn tell(&mut self, done: usize) {
        let now = Instant::now();
        if self.next.is_some_and(|next| now >= next) {
            // A terminal that cannot be written to is no reason to stop.
            let _ = write!(stderr(), "\r{} {done} of {}", self.what, self.total);
            self.next = Some(now + EVERY);
            self.is_shown = true;
        }
    }
}

impl Drop for Progress {
    /// Takes the line away.
    fn drop(&mut self) {
        if self.is_shown {
            let _ = write!(stderr(), "\r\x1b[K");
        }
    }
}
