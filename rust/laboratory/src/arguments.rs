//! The words of a call.

use crate::engines::Sizes;
use crate::failure::Failure;
use crate::looks::Look;
use crate::session::Name;
use crate::text;
use gemsilver::Stretch;
use second::faults::Fault;
use std::ffi::{OsStr, OsString};
use std::os::unix::ffi::{OsStrExt, OsStringExt};
use std::path::PathBuf;

/// The words after the command's name, options taken out.
pub struct Arguments {
    words: std::vec::IntoIter<OsString>,
    pub sizes: Sizes,
    /// A wrong engine to be shown beside ours.
    pub against: Option<Fault>,
    /// The windows that queries are asked over, where they are said.
    pub stretch: Option<Stretch>,
    pub wants_help: bool,
}

impl Arguments {
    /// Takes the options out.
    pub fn of(words: impl Iterator<Item = OsString>) -> Result<Self, Failure> {
        let mut arguments = Arguments {
            words: Vec::new().into_iter(),
            sizes: Sizes::default(),
            against: None,
            stretch: None,
            wants_help: false,
        };
        let mut others = Vec::new();
        let mut words = words;
        while let Some(word) = words.next() {
            match word.as_bytes() {
                b"--blocks" => arguments.sizes.blocks = value("--blocks", words.next())?,
                b"--entries" => arguments.sizes.entries = value("--entries", words.next())?,
                b"--against" => arguments.against = Some(fault(words.next().as_deref())?),
                b"--from" => arguments.edges().first = window_number("--from", words.next())?,
                b"--to" => arguments.edges().last = window_number("--to", words.next())?,
                b"--help" | b"-h" => arguments.wants_help = true,
                b"--" => others.extend(words.by_ref()),
                option if option.starts_with(b"--") => {
                    return Err(Failure::Usage(format!("no such option: {}", shown(&word))));
                }
                _ => others.push(word),
            }
        }
        arguments.words = others.into_iter();
        Ok(arguments)
    }

    /// The stretch to be told; what is not told of it is as in the one of all windows.
    fn edges(&mut self) -> &mut Stretch {
        self.stretch.get_or_insert(Stretch::ALL)
    }

    /// The windows that queries are asked over: all of them where nothing is said.
    pub fn stretch(&self) -> Stretch {
        self.stretch.unwrap_or(Stretch::ALL)
    }

    /// The next word.
    pub fn next(&mut self, what: &str) -> Result<OsString, Failure> {
        self.words
            .next()
            .ok_or_else(|| Failure::Usage(format!("{what} is missing")))
    }

    /// A file.
    pub fn file(&mut self, what: &str) -> Result<PathBuf, Failure> {
        self.next(what).map(PathBuf::from)
    }

    /// A moment.
    pub fn moment(&mut self) -> Result<Name, Failure> {
        self.next("FILE:LINE or a snapshot")
            .map(|name| Name::of(&name))
    }

    /// A number.
    pub fn number(&mut self, what: &str) -> Result<u32, Failure> {
        value(what, self.words.next())
    }

    /// A window: 1 to 65,535.
    pub fn window(&mut self) -> Result<u32, Failure> {
        match self.number("WINDOW")? {
            window @ 1..=65_535 => Ok(window),
            other => Err(Failure::Usage(format!("WINDOW is 1 to 65535, not {other}"))),
        }
    }

    /// An identifier, written as it is shown.
    pub fn identifier(&mut self) -> Result<Vec<u8>, Failure> {
        let word = self.next("IDENTIFIER")?;
        identifier(word.as_bytes())
    }

    /// All further words as identifiers.
    pub fn identifiers(&mut self) -> Result<Vec<Vec<u8>>, Failure> {
        self.words
            .by_ref()
            .map(|word| identifier(word.as_bytes()))
            .collect()
    }

    /// All further words as one line, so that it need not be quoted.
    pub fn line(&mut self, what: &str) -> Result<Vec<u8>, Failure> {
        let mut line = self.next(what)?.into_vec();
        for word in self.words.by_ref() {
            line.push(b' ');
            line.extend(word.into_vec());
        }
        Ok(line)
    }

    /// A wrong engine by its name, `None` for all of them.
    pub fn faults(&mut self) -> Result<Option<Fault>, Failure> {
        let word = self.next("NAME")?;
        if word == "all" {
            return Ok(None);
        }
        fault(Some(&word)).map(Some)
    }

    /// What is to be looked at, if anything is.
    pub fn look(&mut self) -> Result<Option<Look>, Failure> {
        let Some(word) = self.words.next() else {
            return Ok(None);
        };
        if word != "look" {
            let word = shown(&word);
            return Err(Failure::Usage(format!("`look` was expected, not {word}")));
        }
        let what = self.next("what to look at")?;
        let look = match what.as_bytes() {
            b"card" => Look::Card,
            b"partition" => Look::Partition(self.number("the partition's number")? as usize),
            b"buffer" => Look::Buffer,
            b"register" => Look::Register,
            b"merge" => Look::Merge,
            _ => {
                let what = shown(&what);
                return Err(Failure::Usage(format!(
                    "look at card, partition N, buffer, register or merge, not at {what}"
                )));
            }
        };
        Ok(Some(look))
    }

    /// Refuses words that nobody asked for.
    pub fn end(&mut self) -> Result<(), Failure> {
        match self.words.next() {
            Some(word) => Err(Failure::Usage(format!("{} is too much", shown(&word)))),
            None => Ok(()),
        }
    }
}

/// A word as text.
fn shown(word: &OsStr) -> String {
    text::line(word.as_bytes())
}

fn value<T: std::str::FromStr>(what: &str, word: Option<OsString>) -> Result<T, Failure> {
    let word = word.ok_or_else(|| Failure::Usage(format!("{what} takes a number")))?;
    let number = word.to_str().and_then(|word| word.parse().ok());
    number.ok_or_else(|| Failure::Usage(format!("{what}: {} is no number", shown(&word))))
}

/// The edge of a stretch: 0 to 65,535. Only the engine refuses one whose first exceeds its last.
fn window_number(option: &str, word: Option<OsString>) -> Result<u16, Failure> {
    let number: u32 = value(option, word)?;
    let range = || Failure::Usage(format!("{option} is 0 to 65535, not {number}"));
    number.try_into().map_err(|_| range())
}

/// The identifier that is written as it is shown.
pub fn identifier(word: &[u8]) -> Result<Vec<u8>, Failure> {
    text::bytes(word).ok_or_else(|| {
        let word = String::from_utf8_lossy(word);
        Failure::Usage(format!(
            r"identifier {word}: a backslash is written \\, and any byte \x and two digits"
        ))
    })
}

fn fault(word: Option<&OsStr>) -> Result<Fault, Failure> {
    let named = word.and_then(OsStr::to_str).and_then(Fault::named);
    named.ok_or_else(|| {
        let names: Vec<&str> = Fault::ALL.iter().map(|fault| fault.name()).collect();
        Failure::Usage(format!("the wrong engines are {}", names.join(", ")))
    })
}
