//! Every place where a window has counts.

use super::at::{counted, view};
use super::{Command, Outcome};
use crate::arguments::Arguments;
use crate::failure::Failure;
use crate::looks::LABEL;
use crate::places;
use crate::view::View;
use second::ledger::Ledger;
use std::cmp::Reverse;
use std::collections::BTreeMap;
use std::io::Write;

pub const COMMAND: Command = Command {
    name: "where",
    usage: "where FILE:LINE WINDOW [IDENTIFIER..]",
    summary: "every place where a window has counts, with sign, and the sum",
    help: "
Lists every place where the window has counts at that moment: the partitions,
oldest first, and the buffer, identifier by identifier, each with its sign, and
the sum. Where a merge is in progress, what its output has of the window already
is listed too; nobody reads it before the merge ends, and it is in no sum. The
ledger's counts come last, and whether the sums are those. With identifiers, only
their counts are listed.

Exit status 1 where a sum is not the ledger's count.",
    example: "where lessons/2-removed-is-not-gone/lines.txt:14 1",
    asks: false,
    obey,
};

fn obey(arguments: &mut Arguments, out: &mut dyn Write) -> Result<Outcome, Failure> {
    let moment = arguments.moment()?.find(arguments.sizes)?;
    let window = arguments.window()?;
    let named = arguments.identifiers()?;
    let view = view(&moment)?;
    moment.begin(out)?;
    let listing = places::listing(&view, window, &named);
    write!(out, "{LABEL}\n{listing}")?;
    let Some(ledger) = &moment.ledger else {
        writeln!(out, "ledger: none, since a snapshot has no history")?;
        return Ok(Outcome::Good);
    };
    let is_same = sums(&view, window) == counts(ledger, window);
    let told = match ledger.live.get(&window) {
        Some(counts) => {
            let mut counts = counts.clone();
            counts.retain(|name, _| named.is_empty() || named.contains(name));
            format!("window {window} has {}", counted(&counts))
        }
        None => format!("window {window} is not live"),
    };
    let verdict = if is_same { "same" } else { "the sums DIFFER" };
    writeln!(out, "ledger: {told}: {verdict}")?;
    Ok(Outcome::good_if(is_same))
}

/// The window's sums that are not 0, by identifier.
fn sums(view: &View, window: u32) -> BTreeMap<Vec<u8>, i64> {
    let sums = view.sums().into_iter();
    let of_window = sums.filter(|&((_, of), sum)| of == Reverse(window) && sum != 0);
    let named = |((id, _), sum): ((usize, _), i32)| {
        let name = view.names.get(id).cloned().unwrap_or_default();
        (name, i64::from(sum))
    };
    of_window.map(named).collect()
}

/// The ledger's counts of the window.
fn counts(ledger: &Ledger, window: u32) -> BTreeMap<Vec<u8>, i64> {
    let counts = ledger.live.get(&window).into_iter().flatten();
    counts
        .map(|(name, &count)| (name.clone(), count.into()))
        .collect()
}
