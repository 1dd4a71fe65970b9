//! A query asked at a moment.

use super::at::view;
use super::{Command, Outcome};
use crate::arguments::Arguments;
use crate::engines::{Answer, Engine};
use crate::failure::Failure;
use crate::lines::Query;
use crate::looks::LABEL;
use crate::session::Told;
use std::io::Write;

pub const COMMAND: Command = Command {
    name: "query",
    usage: "query FILE:LINE PLACES IDENTIFIER.. [--from N] [--to N]",
    summary: "a query asked at a moment, with the ledger's answer beside it",
    help: "
Asks the proved engine at that moment: the windows that match the identifiers
best, at most so many, and how many stored postings it took up for that. Beside
it stands the plain ledger's answer, `same` or what differs.

With --from and --to the query is asked over the windows from one number to the
other: only they are hits, and only they are counted in N and F. Partitions whose
windows all lie outside are passed over, and their postings are not taken up;
which ones these are is displayed below the hits.

Exit status 1 where the ledger's answer differs. A snapshot that the proved engine
refuses as a whole is an error.",
    example: "query lessons/1-full-length/lines.txt:14 5 DOOR-OPEN-LOGIC-BOX COIN",
    asks: true,
    obey,
};

fn obey(arguments: &mut Arguments, out: &mut dyn Write) -> Result<Outcome, Failure> {
    let moment = arguments.moment()?.find(arguments.sizes)?;
    let places = arguments.number("PLACES")? as usize;
    if places > 99_999 {
        return Err(Failure::Usage("PLACES has 1 to 5 digits".to_string()));
    }
    let query = Query {
        places,
        identifiers: arguments.identifiers()?,
        stretch: arguments.stretch(),
    };
    let view = view(&moment)?;
    moment.begin(out)?;
    let ours = moment.probe.ask(&query);
    let told = moment.ledger.map(|ledger| Told {
        ours: ours.clone(),
        ledgers: ledger.ask(&query),
    });
    let beside = told
        .as_ref()
        .map_or(String::new(), |told| format!(" | {}", told.beside()));
    writeln!(out, "{}{beside}", ours.words())?;
    for hit in ours.hits() {
        writeln!(out, "  {hit}")?;
    }
    if let (Some(stretch), Answer::Found { .. }) = (arguments.stretch, &ours) {
        writeln!(out, "{LABEL}\n{}", view.passed_over_line(stretch))?;
    }
    Ok(Outcome::good_if(told.is_none_or(|told| told.is_same())))
}
