//! A moment saved to a file.

use super::{Command, Outcome};
use crate::arguments::Arguments;
use crate::failure::Failure;
use gemsilver::Snapshot;
use std::fs::{self, File};
use std::io::{self, BufWriter, Write};
use std::path::Path;

pub const COMMAND: Command = Command {
    name: "save",
    usage: "save FILE:LINE OUT",
    summary: "a moment as a snapshot: state, card and register in one file",
    help: "
Writes state, card and register of that moment to one file, with a check sum.
`open`, and every command that takes FILE:LINE, reads it back. A file that is
there already is written over only if it is a snapshot itself.",
    example: "save lessons/1-full-length/lines.txt:10 field.snapshot",
    asks: false,
    obey,
};

fn obey(arguments: &mut Arguments, out: &mut dyn Write) -> Result<Outcome, Failure> {
    let moment = arguments.moment()?.find(arguments.sizes)?;
    let path = arguments.file("OUT")?;
    arguments.end()?;
    if is_another(&path) {
        return Err(Failure::file(
            &path,
            "it is there and no snapshot: left as it is",
        ));
    }
    let written = write(&moment.probe.snapshot(), &path);
    written.map_err(|why| Failure::file(&path, why))?;
    writeln!(out, "{}: {}{}", path.display(), moment.title, moment.passed)?;
    Ok(Outcome::Good)
}

/// Writes beside the file first, so that one that is there is not lost where a disk is full.
fn write(snapshot: &Snapshot, path: &Path) -> io::Result<()> {
    let part = path.with_added_extension("part");
    let write = || {
        let mut file = BufWriter::new(File::create(&part)?);
        snapshot.write(|piece| file.write_all(piece))?;
        file.into_inner()
            .map_err(|why| why.into_error())?
            .sync_all()?;
        fs::rename(&part, path)
    };
    let written = write();
    if written.is_err() {
        // What could not be made need not be there to be taken away.
        let _ = fs::remove_file(&part);
    }
    written
}

/// Whether a file is there that is no snapshot. A damaged one is another file too, as somebody may want to have it looked at.
fn is_another(path: &Path) -> bool {
    // A device may have no end, so it is not read.
    if !path.is_file() {
        return path.exists();
    }
    fs::read(path).map_or(true, |bytes| Snapshot::read(&bytes).is_err())
}
