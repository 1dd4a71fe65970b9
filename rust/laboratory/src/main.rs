//! The program: hands the words of the call on, and tells by its exit status how it went.

use laboratory::{Failure, Outcome, obey};
use std::io::{BufWriter, Write, stderr, stdout};
use std::process::ExitCode;

fn main() -> ExitCode {
    let mut out = BufWriter::new(stdout().lock());
    let result = obey(std::env::args_os().skip(1), &mut out);
    // What could not be written shows here at the latest.
    let written = out.flush().map_err(Failure::Output);
    match result.and_then(|outcome| written.map(|()| outcome)) {
        Ok(Outcome::Good) => ExitCode::SUCCESS,
        Ok(Outcome::Bad) => ExitCode::from(1),
        Err(failure) => {
            // Nothing is left to be done where standard error is closed too.
            let _ = writeln!(stderr(), "gemsilver: {failure}");
            ExitCode::from(2)
        }
    }
}
