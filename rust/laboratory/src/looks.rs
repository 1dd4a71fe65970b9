//! What lies where, as text.

use crate::text::{count, identifier, signed, windows};
use crate::view::{Owner, Posting, View};
use gemsilver::Stretch;
use std::fmt::Write;

/// The line above everything that is only shown.
pub const LABEL: &str = "# display, not proved";

/// What can be looked at.
#[derive(Clone, Copy, PartialEq, Eq, Debug)]
pub enum Look {
    Card,
    Partition(usize),
    Buffer,
    Register,
    Merge,
}

impl View {
    /// An identifier's text; its number where the register has none.
    pub fn name(&self, id: usize) -> String {
        match self.names.get(id) {
            Some(name) => identifier(name),
            None => format!("#{id}"),
        }
    }

    /// The text of a look, or what is not there to be looked at.
    pub fn look(&self, look: Look) -> Result<String, String> {
        match look {
            Look::Card => Ok(self.card()),
            Look::Partition(number) => self.partition(number),
            Look::Buffer => Ok(self.buffer_line() + "\n" + &self.postings(&self.buffer)),
            Look::Register => Ok(self.register()),
            Look::Merge => Ok(self.merge_lines()),
        }
    }

    /// The window numbers and the open window.
    pub fn windows_line(&self) -> String {
        let start = format!("windows: last {}, {} closed and live", self.last, self.live);
        if self.open == 0 {
            return start + ", none open";
        }
        let names: Vec<String> = self.listed.iter().map(|&id| self.name(id)).collect();
        let names = match &names[..] {
            [] => String::new(),
            _ => format!(": {}", names.join(" ")),
        };
        let events = count(self.events, "event");
        format!("{start}, open {} with {events}{names}", self.open)
    }

    /// How many blocks are whose.
    pub fn card_line(&self) -> String {
        format!(
            "blocks {}: {} finished, {} output, {} free, {} other; last taken {}",
            self.owners.len(),
            self.blocks(|owner| matches!(owner, Owner::Partition(_))),
            self.blocks(|owner| *owner == Owner::Output),
            self.blocks(|owner| *owner == Owner::Free),
            self.blocks(|owner| *owner == Owner::Other),
            self.taken
        )
    }

    /// The card's map, sixteen blocks a row.
    pub fn card(&self) -> String {
        let mut text = self.card_line() + "\n";
        for (row, owners) in self.owners.chunks(16).enumerate() {
            let cells: Vec<String> = owners.iter().map(|owner| self.cell(owner)).collect();
            let line = format!("{:4}  {}", 16 * row, cells.join(" "));
            text += line.trim_end();
            text += "\n";
        }
        text
    }

    fn cell(&self, owner: &Owner) -> String {
        let text = match *owner {
            Owner::Free => ".".to_string(),
            Owner::Partition(place) => format!("{}/{}", place + 1, self.partitions[place].level),
            Owner::Output => "=".to_string(),
            Owner::Other => "?".to_string(),
        };
        format!("{text:4}")
    }

    /// The line of a partition, by its place from 0.
    pub fn partition_line(&self, place: usize) -> String {
        let stored = &self.partitions[place];
        let lists = stored.postings.chunk_by(|one, next| one.id == next.id);
        format!(
            "partition {} of {}: level {}, windows {} to {}, {} bytes, blocks {}; {}, {}",
            place + 1,
            self.partitions.len(),
            stored.level,
            stored.lowest,
            stored.highest,
            stored.bytes,
            numbers(&stored.blocks),
            count(lists.count(), "identifier"),
            count(stored.postings.len(), "posting")
        )
    }

    /// Which partitions a query over a stretch passes over.
    pub fn passed_over_line(&self, stretch: Stretch) -> String {
        let all = self.partitions.len();
        let places = (0..all).filter(|&place| self.partitions[place].is_passed_over(stretch));
        let passed: Vec<usize> = places.map(|place| place + 1).collect();
        let passed = match &passed[..] {
            [] => "none".to_string(),
            _ => numbers(&passed),
        };
        let all = count(all, "partition");
        format!("{}: of {all} passed over: {passed}", windows(stretch))
    }

    fn partition(&self, number: usize) -> Result<String, String> {
        match number
            .checked_sub(1)
            .filter(|&place| place < self.partitions.len())
        {
            Some(place) => {
                let postings = self.postings(&self.partitions[place].postings);
                Ok(self.partition_line(place) + "\n" + &postings)
            }
            None => Err(format!(
                "there is no partition {number}: {} are finished, numbered from 1",
                self.partitions.len()
            )),
        }
    }

    /// A line for each posting.
    fn postings(&self, postings: &[Posting]) -> String {
        let names: Vec<String> = postings
            .iter()
            .map(|posting| self.name(posting.id))
            .collect();
        let width = names.iter().map(String::len).max().unwrap_or(0);
        let mut text = String::new();
        for (name, posting) in names.iter().zip(postings) {
            let (window, signed) = (posting.window, signed(posting.count));
            let _ = writeln!(text, "{name:width$}  window {window}  {signed}");
        }
        text
    }

    /// How full the buffer is.
    pub fn buffer_line(&self) -> String {
        format!("buffer: {} of 128 postings", self.buffer.len())
    }

    /// How full the register is.
    pub fn register_line(&self) -> String {
        format!("register: {} of {} entries", self.names.len(), self.entries)
    }

    fn register(&self) -> String {
        let mut text = self.register_line() + "\n";
        for (number, name) in self.names.iter().enumerate() {
            let _ = writeln!(text, "{number:4}  {}", identifier(name));
        }
        text
    }

    /// How far the merge is.
    pub fn merge_lines(&self) -> String {
        let Some(merge) = &self.merge else {
            return match self.due() {
                Some(level) => format!("merge: none in progress, level {level} is due\n"),
                None => "merge: none in progress, none due\n".to_string(),
            };
        };
        let output = match &merge.blocks[..] {
            [] => "none, all sums are 0".to_string(),
            blocks => format!(
                "{} bytes, blocks {}, {} of {} postings written",
                merge.bytes,
                numbers(blocks),
                merge.written,
                merge.result.len()
            ),
        };
        format!(
            "merge: step {} of {}, level {} into {}\ninputs: partitions {} to {}, {} of {} pairs taken\noutput: {output}\n",
            merge.step,
            merge.steps,
            merge.level,
            merge.into,
            merge.inputs.start + 1,
            merge.inputs.end,
            merge.taken,
            merge.pairs
        )
    }

    /// Everything in short: the windows, the card's map, and a line for each other thing.
    pub fn overview(&self) -> String {
        let partitions = (0..self.partitions.len()).map(|place| self.partition_line(place));
        let mut text = format!("{}\n{}", self.windows_line(), self.card());
        for line in partitions.chain([self.buffer_line(), self.register_line()]) {
            text += &line;
            text += "\n";
        }
        text + &self.merge_lines()
    }
}

/// Numbers parted by spaces.
fn numbers(numbers: &[usize]) -> String {
    let numbers: Vec<String> = numbers.iter().map(usize::to_string).collect();
    numbers.join(" ")
}
