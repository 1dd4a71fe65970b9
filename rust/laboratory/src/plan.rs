//! Plans: files of lines that open windows, count events in them and close them, and do nothing else.

use crate::failure::Failure;
use crate::lines::{self, Command, Line};
use crate::text;
use gemsilver::Entry;
use std::path::Path;

/// A planned session.
#[derive(PartialEq, Eq, Debug)]
pub struct Plan {
    windows: Vec<Window>,
}

/// A window of a plan, with the lines that it stands on.
#[derive(PartialEq, Eq, Debug)]
struct Window {
    /// The line that opens it.
    line: usize,
    /// The line and the identifier of each event.
    events: Vec<(usize, Vec<u8>)>,
}

impl Plan {
    /// The plan that a file's lines are, or what is wrong with which line.
    pub fn of(lines: &[Vec<u8>], path: &Path) -> Result<Plan, Failure> {
        let mut windows = Vec::new();
        let mut open: Option<Window> = None;
        for (number, line) in (1..).zip(lines) {
            let wrong = |why: &str| {
                let line = match &text::line(line)[..] {
                    "" => String::new(),
                    line => format!(", {line}"),
                };
                Failure::file(path, format!("line {number}{line}: {why}"))
            };
            let command = match Line::of(line) {
                Line::Comment => continue,
                Line::Command(command) => command,
                Line::Unknown(why) => {
                    let whys = [&[why], &lines::warnings(line)[..]].concat();
                    return Err(wrong(&format!("not understood: {}", whys.join("; "))));
                }
            };
            match (command, &mut open) {
                (Command::Open, None) => {
                    open = Some(Window {
                        line: number,
                        events: Vec::new(),
                    });
                }
                (Command::Open, Some(window)) => {
                    let why = format!("the window of line {} is not closed yet", window.line);
                    return Err(wrong(&why));
                }
                (Command::Event(identifier), Some(window)) => {
                    window.events.push((number, identifier));
                }
                (Command::Close, Some(_)) => windows.extend(open.take()),
                (Command::Event(_) | Command::Close, None) => {
                    return Err(wrong("no window of the plan is open: O opens one"));
                }
                _ => return Err(wrong("a plan has lines O, E and C alone")),
            }
        }
        match open {
            Some(window) => {
                let why = format!("the window of line {} is never closed", window.line);
                Err(Failure::file(path, why))
            }
            None => Ok(Plan { windows }),
        }
    }

    /// How many windows it has, and how many events.
    pub fn words(&self) -> String {
        let events = self.windows.iter().map(|window| window.events.len());
        format!(
            "{}, {}",
            text::count(self.windows.len(), "window"),
            text::count(events.sum::<usize>(), "event")
        )
    }

    /// The events as the engine takes them: an entry each, and how many each window has.
    pub fn laid_out(&self) -> (Vec<Entry>, Vec<u32>) {
        let events = self.windows.iter().flat_map(|window| &window.events);
        let entries = events.map(|(_, identifier)| identifier.into());
        let counts = self.windows.iter().map(|window| window.events.len() as u32);
        (entries.collect(), counts.collect())
    }

    /// The identifiers of each window, as the ledger takes them.
    pub fn identifiers(&self) -> Vec<Vec<Vec<u8>>> {
        let identifiers = |window: &Window| {
            let events = window.events.iter();
            events.map(|(_, identifier)| identifier.clone()).collect()
        };
        self.windows.iter().map(identifiers).collect()
    }

    /// The line of a window's event, or of its open for 0; the places of both count from 1.
    pub fn line(&self, window: usize, event: usize) -> usize {
        let window = &self.windows[window - 1];
        match event {
            0 => window.line,
            _ => window.events[event - 1].0,
        }
    }
}

/// The first line of each kind of warning.
pub fn warnings(lines: &[Vec<u8>]) -> Vec<(usize, &'static str)> {
    let mut said: Vec<(usize, &str)> = Vec::new();
    for (number, line) in (1..).zip(lines) {
        for warning in lines::warnings(line) {
            if said.iter().all(|&(_, other)| other != warning) {
                said.push((number, warning));
            }
        }
    }
    said
}

#[cfg(test)]
mod tests {
    use super::{Plan, warnings};
    use std::path::Path;

    fn read(text: &str) -> Result<Plan, String> {
        let lines: Vec<Vec<u8>> = text.lines().map(|line| line.into()).collect();
        Plan::of(&lines, Path::new("p")).map_err(|why| why.to_string())
    }

    #[test]
    fn calls_are_found_by_their_places() {
        let plan = read("# two windows\nO\nE A\n# between\nE B\nC\nO\nC\n").expect("a plan");
        assert_eq!(plan.words(), "2 windows, 2 events");
        let lines =
            [(1, 0), (1, 1), (1, 2), (2, 0)].map(|(window, event)| plan.line(window, event));
        assert_eq!(lines, [2, 3, 5, 7]);
    }

    #[test]
    fn what_is_no_plan_is_told_with_its_line() {
        let cases = [
            (
                "E A",
                "p: line 1, E A: no window of the plan is open: O opens one",
            ),
            (
                "O\nC\nC",
                "p: line 3, C: no window of the plan is open: O opens one",
            ),
            (
                "#\nO\nE A\nO",
                "p: line 4, O: the window of line 2 is not closed yet",
            ),
            ("O\nE A", "p: the window of line 1 is never closed"),
            ("O\nM\nC", "p: line 2, M: a plan has lines O, E and C alone"),
            ("O\n\nC", "p: line 2: not understood: it is empty"),
            (
                "O\t\nC",
                "p: line 1, O\\x09: not understood: its first field is none of O, E, C, R, F, M and Q; \
                 the line has a tab, and a tab parts no fields: it counts as a byte of its field",
            ),
        ];
        for (text, expected) in cases {
            assert_eq!(read(text), Err(expected.to_string()), "{text}");
        }
    }

    #[test]
    fn each_warning_is_said_once() {
        let lines = [&b"O\r"[..], b"E A\t\r", b"E \t", b"C\r"].map(Vec::from);
        let numbers: Vec<usize> = warnings(&lines).iter().map(|said| said.0).collect();
        assert_eq!(numbers, [1, 2]);
    }
}
