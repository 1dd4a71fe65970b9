//! The mean count of an identifier at a moment.

use super::at::view;
use super::{Command, Outcome};
use crate::arguments::Arguments;
use crate::engines::refused;
use crate::failure::Failure;
use crate::session::beside;
use crate::text::{count, identifier};
use gemsilver::Refusal;
use std::io::Write;

pub const COMMAND: Command = Command {
    name: "mean",
    usage: "mean FILE:LINE IDENTIFIER",
    summary: "an identifier's mean count, with what the division leaves over",
    help: "
Asks the proved engine for the mean count of an identifier over the closed
windows in which it counts: the whole quotient and the exact remainder, so that
quotient x windows + remainder is the sum. Beside it stands the plain ledger's
answer, `same` or what differs.

Exit status 1 where the ledger's answer differs. A snapshot that the proved engine
refuses as a whole is an error.",
    example: "mean lessons/1-full-length/lines.txt:14 DOOR-OPEN-LOGIC-BOX",
    asks: false,
    obey,
};

/// Quotient, remainder and windows, or a refusal's number.
type Told = Result<[u32; 3], u32>;

fn obey(arguments: &mut Arguments, out: &mut dyn Write) -> Result<Outcome, Failure> {
    let moment = arguments.moment()?.find(arguments.sizes)?;
    let name = arguments.identifier()?;
    arguments.end()?;
    view(&moment)?;
    moment.begin(out)?;
    let ours: Told = match moment.probe.mean(&name) {
        Ok(mean) => Ok([mean.quotient, mean.remainder, mean.windows]),
        Err(refusal) => Err(Refusal::number(refusal)),
    };
    let ledgers: Option<Told> = moment.ledger.map(|ledger| match ledger.mean(&name) {
        Ok(mean) => Ok([mean.quotient, mean.remainder, mean.windows]),
        Err(number) => Err(number.into()),
    });
    let is_same = ledgers.is_none_or(|ledgers| ledgers == ours);
    let beside = ledgers.map_or(String::new(), |ledgers| {
        format!(" | {}", beside(is_same, &words(ledgers)))
    });
    writeln!(out, "{}: {}{beside}", identifier(&name), words(ours))?;
    Ok(Outcome::good_if(is_same))
}

fn words(told: Told) -> String {
    match told {
        Ok([quotient, remainder, windows]) => {
            let sum = u64::from(quotient) * u64::from(windows) + u64::from(remainder);
            let windows = count(windows, "window");
            format!("mean {quotient}, remainder {remainder}: {sum} in {windows}")
        }
        Err(number) => refused(number),
    }
}
