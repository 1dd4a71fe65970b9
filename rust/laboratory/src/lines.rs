//! Files of command lines: the command program's own format, with comments.
//!
//! A line that begins with `#` is a comment here; everything else is read as the command program reads it.

use crate::failure::Failure;
use gemsilver::Stretch;
use std::fs;
use std::path::Path;

/// The longest line, without its end.
const LONGEST: usize = 512;
/// What a snapshot's file begins with, enough to tell it from lines.
pub const SNAPSHOT: &[u8] = b"GEMSILVER\r\n";
/// What some editors put in front of a text.
const BOM: &[u8] = b"\xef\xbb\xbf";

/// What a line asks for.
#[derive(Clone, PartialEq, Eq, Debug)]
pub enum Command {
    Open,
    Event(Vec<u8>),
    Close,
    Remove(u32),
    Flush,
    Step,
    Query(Query),
}

/// A query: the places in its list, its identifiers, and the windows that it is asked over. A line asks over all of them.
#[derive(Clone, PartialEq, Eq, Debug)]
pub struct Query {
    pub places: usize,
    pub identifiers: Vec<Vec<u8>>,
    pub stretch: Stretch,
}

impl Command {
    /// The same command; a query is asked over a stretch.
    pub fn over(self, stretch: Stretch) -> Command {
        match self {
            Command::Query(query) => Command::Query(Query { stretch, ..query }),
            other => other,
        }
    }
}

/// A line, taken apart.
#[derive(Clone, PartialEq, Eq, Debug)]
pub enum Line {
    Comment,
    Command(Command),
    /// The command program prints `?`: why.
    Unknown(&'static str),
}

/// The lines of a file, without their ends. A last line without an end is a line.
pub fn read(path: &Path) -> Result<Vec<Vec<u8>>, Failure> {
    let text = fs::read(path).map_err(|why| Failure::file(path, why))?;
    if text.starts_with(SNAPSHOT) {
        let why = "it is a snapshot and no file of lines: gemsilver open shows it";
        return Err(Failure::file(path, why));
    }
    let mut lines: Vec<Vec<u8>> = text.split(|&byte| byte == b'\n').map(Vec::from).collect();
    if lines.last().is_some_and(Vec::is_empty) {
        lines.pop();
    }
    Ok(lines)
}

impl Line {
    /// Takes a line apart.
    pub fn of(line: &[u8]) -> Line {
        if line.starts_with(b"#") {
            return Line::Comment;
        }
        match command(line) {
            Ok(command) => Line::Command(command),
            Err(why) => Line::Unknown(why),
        }
    }
}

/// What is said of lines that were passed over, behind what else is said; nothing where all were understood.
pub fn passed_over(lines: &[Vec<u8>]) -> String {
    let is_unknown = |line: &&Vec<u8>| matches!(Line::of(line), Line::Unknown(_));
    match lines.iter().filter(is_unknown).count() {
        0 => String::new(),
        1 => "; 1 line was not understood".to_string(),
        number => format!("; {number} lines were not understood"),
    }
}

fn command(line: &[u8]) -> Result<Command, &'static str> {
    if line.len() > LONGEST {
        return Err("it has more than 512 bytes");
    }
    let fields: Vec<&[u8]> = line.split(|&byte| byte == b' ').collect();
    if fields.iter().any(|field| field.is_empty()) {
        return Err(if line.is_empty() {
            "it is empty"
        } else {
            "a field is empty: fields are parted by one space"
        });
    }
    match fields[..] {
        [b"O"] => Ok(Command::Open),
        [b"E", identifier] => Ok(Command::Event(identifier.to_vec())),
        [b"C"] => Ok(Command::Close),
        [b"R", window] => Ok(Command::Remove(number(window)?)),
        [b"F"] => Ok(Command::Flush),
        [b"M"] => Ok(Command::Step),
        [b"Q", places, ref identifiers @ ..] => Ok(Command::Query(Query {
            places: number(places)? as usize,
            identifiers: identifiers.iter().map(|field| field.to_vec()).collect(),
            stretch: Stretch::ALL,
        })),
        [b"O" | b"C" | b"F" | b"M", ..] => Err("this command stands alone"),
        [b"E", ..] => Err("E takes one identifier"),
        [b"R", ..] => Err("R takes one window"),
        [b"Q"] => Err("Q takes the places in its list, and identifiers"),
        _ => Err("its first field is none of O, E, C, R, F, M and Q"),
    }
}

/// A number of 1 to 5 digits.
pub fn number(field: &[u8]) -> Result<u32, &'static str> {
    let is_number = (1..=5).contains(&field.len()) && field.iter().all(u8::is_ascii_digit);
    let value = |total: u32, &digit: &u8| total * 10 + u32::from(digit - b'0');
    if is_number {
        Ok(field.iter().fold(0, value))
    } else {
        Err("a number has 1 to 5 digits")
    }
}

/// What in a line is easily overlooked, as it does not show: to the probe these are bytes like any other. In a comment they do not matter.
pub fn warnings(line: &[u8]) -> Vec<&'static str> {
    if Line::of(line) == Line::Comment {
        return Vec::new();
    }
    let signs: [(bool, &str); 3] = [
        (
            line.starts_with(BOM),
            "the line begins with a byte order mark, three bytes that no editor shows",
        ),
        (
            line.contains(&b'\r'),
            "the line has a carriage return, and it counts as a byte of its field",
        ),
        (
            line.contains(&b'\t'),
            "the line has a tab, and a tab parts no fields: it counts as a byte of its field",
        ),
    ];
    let met = signs.into_iter().filter(|(is_met, _)| *is_met);
    met.map(|(_, warning)| warning).collect()
}

#[cfg(test)]
mod tests {
    use super::{Line, warnings};

    #[test]
    fn a_comment_is_no_command_and_a_space_before_it_is_no_comment() {
        assert_eq!(Line::of(b"# O"), Line::Comment);
        assert!(matches!(Line::of(b" # O"), Line::Unknown(_)));
    }

    #[test]
    fn what_does_not_show_is_warned_of() {
        assert_eq!(warnings(b"E LUCKY"), Vec::<&str>::new());
        assert_eq!(warnings(b"\xef\xbb\xbfE\tA\r").len(), 3);
        assert_eq!(warnings(b"#\t\r"), Vec::<&str>::new());
    }
}
