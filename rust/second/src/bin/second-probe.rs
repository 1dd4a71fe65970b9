//! Reads commands from standard input, one a line, and prints the answers.

use second::commands::Probe;
use std::io::{BufRead, Write, stdin, stdout};

fn main() -> std::io::Result<()> {
    let mut probe = Probe::new();
    let mut out = stdout().lock();
    for line in stdin().lock().split(b'\n') {
        out.write_all(probe.obey(&line?).as_bytes())?;
    }
    Ok(())
}
