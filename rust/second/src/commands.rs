//! The command program: one line in, its answer out.

use crate::engine::{close, event, flush, open, query, remove, start, step};
use crate::refusal::Refusal;
use crate::state::{Hit, State};
use crate::stretch::Stretch;
use std::fmt::Display;

/// The longest line, without its end.
const LINE: usize = 512;
/// The answer to a line that is no command.
const UNKNOWN: &str = "?\n";

/// The probe that the program runs: the state and its buffers.
#[derive(Clone, PartialEq, Eq, Debug)]
pub struct Probe {
    /// What is remembered between lines.
    pub state: State,
    /// The card.
    pub card: Vec<u8>,
    /// The register.
    pub register: Vec<u8>,
}

impl Probe {
    /// A fresh probe with 16 blocks and 64 entries.
    pub fn new() -> Self {
        let mut card = vec![0; 16 * 4096];
        let mut register = vec![0; 64 * 65];
        let (state, _) = start(&mut card, &mut register);
        Probe {
            state,
            card,
            register,
        }
    }

    /// Obeys a line, without its end, and gives the lines to print.
    pub fn obey(&mut self, line: &[u8]) -> String {
        if line.len() > LINE {
            return UNKNOWN.to_string();
        }
        let fields: Vec<&[u8]> = line.split(|&byte| byte == b' ').collect();
        if fields.iter().any(|field| field.is_empty()) {
            return UNKNOWN.to_string();
        }
        match fields[..] {
            [b"O"] => answer(open(&mut self.state)),
            [b"E", identifier] => done(event(
                &mut self.state,
                &mut self.card,
                &mut self.register,
                identifier,
            )),
            [b"C"] => done(close(&mut self.state)),
            [b"R", window] => self.remove(window),
            [b"F"] => done(flush(&mut self.state, &mut self.card)),
            [b"M"] => done(step(&mut self.state, &mut self.card)),
            [b"Q", places, ref ids @ ..] => self.query(places, ids),
            _ => UNKNOWN.to_string(),
        }
    }

    fn remove(&mut self, window: &[u8]) -> String {
        match number(window) {
            Some(window) => done(remove(&mut self.state, &mut self.card, window)),
            None => UNKNOWN.to_string(),
        }
    }

    fn query(&self, places: &[u8], ids: &[&[u8]]) -> String {
        let Some(places) = number(places) else {
            return UNKNOWN.to_string();
        };
        let mut hits = vec![Hit::default(); places as usize];
        let found = query(
            &self.state,
            &self.card,
            &self.register,
            ids,
            Stretch::ALL,
            &mut hits,
        );
        match found {
            Ok(found) => {
                let mut lines = format!("{} {}\n", found.hits, found.taken);
                for hit in &hits[..usize::from(found.hits)] {
                    lines += &format!("{} {}\n", hit.window, hit.score);
                }
                lines
            }
            Err(refusal) => refused(refusal),
        }
    }
}

impl Default for Probe {
    fn default() -> Self {
        Probe::new()
    }
}

/// A number of 1 to 5 digits.
fn number(field: &[u8]) -> Option<u32> {
    let is_number = (1..=5).contains(&field.len()) && field.iter().all(u8::is_ascii_digit);
    let value = |total: u32, &digit: &u8| total * 10 + u32::from(digit - b'0');
    is_number.then(|| field.iter().fold(0, value))
}

/// The line for a call that answers a value.
fn answer(result: Result<impl Display, Refusal>) -> String {
    match result {
        Ok(value) => format!("{value}\n"),
        Err(refusal) => refused(refusal),
    }
}

/// The line for a call that answers nothing.
fn done(result: Result<(), Refusal>) -> String {
    answer(result.map(|()| 0))
}

fn refused(refusal: Refusal) -> String {
    format!("!{}\n", refusal.number())
}
