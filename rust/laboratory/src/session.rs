//! The proved engine and the plain ledger side by side, and the moments of a file of lines.

use crate::engines::{Answer, Engine, Sizes, proved, refused};
use crate::failure::Failure;
use crate::lines::{self, Command, Line};
use crate::progress::Progress;
use gemsilver::{Probe, Refusal, Snapshot, Stretch};
use second::ledger::Ledger;
use std::ffi::OsStr;
use std::fs;
use std::io::Write;
use std::os::unix::ffi::OsStrExt;
use std::path::{Path, PathBuf};

/// Both after the same commands.
pub struct Session {
    pub probe: Probe<Vec<u8>>,
    pub ledger: Ledger,
}

/// What both answer.
pub struct Told {
    pub ours: Answer,
    pub ledgers: Answer,
}

impl Told {
    /// Whether the engine answers as the ledger does.
    pub fn is_same(&self) -> bool {
        self.ours == self.ledgers
    }

    /// What is said of the ledger beside the engine's answer.
    pub fn beside(&self) -> String {
        beside(self.is_same(), &self.ledgers.whole())
    }
}

/// What is said of the ledger's answer, given in words, beside the engine's.
pub fn beside(is_same: bool, ledgers: &str) -> String {
    match is_same {
        true => "ledger: same".to_string(),
        false => format!("ledger DIFFERS: {ledgers}"),
    }
}

impl Session {
    /// Both on a fresh card.
    pub fn new(sizes: Sizes) -> Result<Session, Failure> {
        let probe = proved(sizes).map_err(|refusal| {
            let limits = "a card has 4 to 4096 blocks, a register 1 to 1024 entries";
            Failure::Usage(format!("{}; {limits}", refused(refusal.number())))
        })?;
        Ok(Session {
            probe,
            ledger: Ledger::new(sizes.blocks, sizes.entries),
        })
    }

    /// Obeys a command.
    pub fn obey(&mut self, command: &Command) -> Told {
        Told {
            ours: self.probe.obey(command),
            ledgers: self.ledger.obey(command),
        }
    }

    /// Obeys the command of a line, a query over a stretch; other lines have none.
    pub fn obey_line(&mut self, line: &[u8], stretch: Stretch) -> Option<Told> {
        match Line::of(line) {
            Line::Command(command) => Some(self.obey(&command.over(stretch))),
            _ => None,
        }
    }

    /// Whether a refusal with 11 is for good: no merge is due that would make room.
    pub fn is_at_end(&self) -> bool {
        self.probe.clone().step() == Err(Refusal::NothingDue)
    }
}

/// What a moment's name stands for.
pub enum Name {
    /// A file of lines, and how many of them are obeyed.
    Lines(PathBuf, Option<usize>),
    Snapshot(PathBuf),
}

/// A probe at some moment.
pub struct Moment {
    /// Which moment it is, in words.
    pub title: String,
    /// What is said of lines that were passed over on the way there.
    pub passed: String,
    pub probe: Probe<Vec<u8>>,
    /// The ledger after the same lines; a snapshot has no history, so that there is none.
    pub ledger: Option<Ledger>,
}

impl Moment {
    /// Says at the top what else would go unsaid: that lines were passed over.
    pub fn begin(&self, out: &mut dyn Write) -> Result<(), Failure> {
        if !self.passed.is_empty() {
            writeln!(out, "# {}{}", self.title, self.passed)?;
        }
        Ok(())
    }

    /// Something that cannot be done with it.
    pub fn failure(&self, why: String) -> Failure {
        Failure::Input(format!("{}: {why}", self.title))
    }
}

impl Name {
    /// Takes a name apart: FILE:LINE, FILE alone for its end, or a snapshot's file.
    pub fn of(name: &OsStr) -> Name {
        let path = Path::new(name);
        // A pipe can be read only once, and has lines.
        if path.is_file()
            && let Ok(bytes) = fs::read(path)
        {
            return match bytes.starts_with(lines::SNAPSHOT) {
                true => Name::Snapshot(path.to_owned()),
                false => Name::Lines(path.to_owned(), None),
            };
        }
        let parts: Vec<&[u8]> = name.as_bytes().rsplitn(2, |&byte| byte == b':').collect();
        if let [line, file] = parts[..]
            && let Ok(line) = str::from_utf8(line).unwrap_or_default().parse()
        {
            return Name::Lines(OsStr::from_bytes(file).into(), Some(line));
        }
        Name::Lines(path.to_owned(), None)
    }

    /// Goes to the moment.
    pub fn find(&self, sizes: Sizes) -> Result<Moment, Failure> {
        match self {
            Name::Lines(file, line) => after(file, *line, sizes),
            Name::Snapshot(file) => opened(file),
        }
    }
}

/// The moment after a line of a file, or after its last.
fn after(file: &Path, line: Option<usize>, sizes: Sizes) -> Result<Moment, Failure> {
    let lines = lines::read(file)?;
    if line.is_none() && !has_commands(&lines) {
        let why = Snapshot::read(&lines.join(&b'\n')).err();
        let why = why.map_or(String::new(), |why| format!("; {why}"));
        let why = format!("none of its lines is a command{why}");
        return Err(Failure::file(file, why));
    }
    let count = line.unwrap_or(lines.len());
    if count > lines.len() {
        let why = format!("there is no line {count}: the file has {}", lines.len());
        return Err(Failure::file(file, why));
    }
    let mut session = Session::new(sizes)?;
    let mut progress = Progress::new("line", count);
    for (number, line) in (1..).zip(&lines[..count]) {
        session.obey_line(line, Stretch::ALL);
        progress.tell(number);
    }
    drop(progress);
    let file = file.display();
    Ok(Moment {
        passed: lines::passed_over(&lines[..count]),
        title: match count {
            0 => format!("a fresh card, before line 1 of {file}"),
            _ => format!("after line {count} of {file}"),
        },
        probe: session.probe,
        ledger: Some(session.ledger),
    })
}

/// Whether any line is a command, or all are comments; else it may be a damaged snapshot.
fn has_commands(lines: &[Vec<u8>]) -> bool {
    let mut lines = lines.iter().map(|line| Line::of(line));
    lines.clone().all(|line| line == Line::Comment)
        || lines.any(|line| matches!(line, Line::Command(_)))
}

/// The moment that a snapshot holds.
fn opened(file: &Path) -> Result<Moment, Failure> {
    let bytes = fs::read(file).map_err(|why| Failure::file(file, why))?;
    let snapshot = Snapshot::read(&bytes).map_err(|why| Failure::file(file, why))?;
    let parts = [snapshot.image, snapshot.card, snapshot.register].map(Vec::from);
    let [image, card, register] = parts;
    Ok(Moment {
        title: format!("the snapshot {}", file.display()),
        passed: String::new(),
        probe: Probe::resume(image, card, register),
        ledger: None,
    })
}

/// What the proved engine says of a probe as a whole, where it refuses: a removal of window 0, of which there is none, reads and judges all of
/// the state and the card, a mean the register too, and a step the merge's output.
pub fn judged(probe: &Probe<Vec<u8>>) -> Result<(), Refusal> {
    let refusals = [
        probe.clone().remove(0).err(),
        probe.mean("").err(),
        probe.clone().step().err(),
    ];
    let worst = refusals.into_iter().flatten().min();
    match worst {
        Some(refusal) if refusal <= Refusal::Malformed => Err(refusal),
        _ => Ok(()),
    }
}

#[cfg(test)]
mod tests {
    use super::Told;
    use crate::engines::Answer;

    #[test]
    fn a_difference_is_told_with_the_ledgers_answer() {
        let found = |score| Answer::Found {
            hits: vec![(1, score)],
            taken: 2,
        };
        let (ours, ledgers) = (found(3), found(4));
        let told = Told { ours, ledgers };
        assert!(!told.is_same());
        assert_eq!(
            told.beside(),
            "ledger DIFFERS: 1 hit, 2 postings taken: window 1  score 4"
        );
    }
}
