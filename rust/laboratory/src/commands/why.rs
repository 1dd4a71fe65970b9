//! How a window's score comes about.

use super::at::view;
use super::{Command, Outcome};
use crate::arguments::Arguments;
use crate::engines::{found_by, refused};
use crate::failure::Failure;
use crate::lines::Query;
use crate::reckoning::{Product, Rarity, Reckoning};
use crate::session::Moment;
use crate::text::{identifier, windows};
use std::io::Write;

pub const COMMAND: Command = Command {
    name: "why",
    usage: "why FILE:LINE WINDOW IDENTIFIER.. [--from N] [--to N]",
    summary: "how a window's score comes about, held against the query's",
    help: "
Reckons the window's score for these identifiers: for each its count and what
that weighs, S(count + 1); N and F, and what these weigh, S(N) - S(F); the
product; and the total. S(n) is the binary logarithm of n in sixteenths, rounded
down. The proved engine is then asked, and its score must be equal.

With --from and --to it is the score of a query over the windows from one number
to the other: N and F count only these.

Exit status 1 where it is not, or where the query is refused.",
    example: "why lessons/1-full-length/lines.txt:14 1 DOOR-OPEN-LOGIC-BOX COIN",
    asks: true,
    obey,
};

/// The most places of a list of hits.
const PLACES: usize = 32;

fn obey(arguments: &mut Arguments, out: &mut dyn Write) -> Result<Outcome, Failure> {
    let moment = arguments.moment()?.find(arguments.sizes)?;
    let window = arguments.window()?;
    let identifiers = arguments.identifiers()?;
    let view = view(&moment)?;
    moment.begin(out)?;
    let stretch = arguments.stretch();
    let reckoning = Reckoning::of(&view, &identifiers, stretch);
    writeln!(out, "# reckoned for display, not proved")?;
    if arguments.stretch.is_some() {
        writeln!(out, "{}", view.passed_over_line(stretch))?;
    }
    writeln!(out, "N {}, S(N) {}", reckoning.live, reckoning.sixteenths)?;
    let products = reckoning.products(window);
    for (rarity, product) in reckoning.rarities.iter().zip(&products) {
        writeln!(out, "{}", line(&reckoning, rarity, product.as_ref()))?;
    }
    let is_inside = (u32::from(stretch.first)..=u32::from(stretch.last)).contains(&window);
    let total = total(&products).filter(|_| is_inside && window != view.open);
    match total {
        Some(total) => writeln!(out, "total {total}")?,
        None if window == view.open => writeln!(out, "window {window} is open: no result yet")?,
        None if !is_inside => {
            let windows = windows(stretch);
            writeln!(out, "window {window} is none of {windows}: no hit")?;
        }
        None => writeln!(out, "none of them counts in window {window}: no hit")?,
    }
    writeln!(out, "# asked of the proved engine")?;
    let query = Query {
        places: PLACES,
        identifiers,
        stretch,
    };
    compare(&moment, window, &query, total, out)
}

fn line(reckoning: &Reckoning, rarity: &Rarity, product: Option<&Product>) -> String {
    let name = identifier(&rarity.identifier);
    let Rarity {
        windows,
        sixteenths,
        weight,
        ..
    } = rarity;
    let rare = format!(
        "F {windows}, weight S({}) - S({windows}) = {} - {sixteenths} = {weight}",
        reckoning.live, reckoning.sixteenths
    );
    let rare = match weight {
        0 if *windows == 0 => format!("F {windows}, weight 0"),
        _ => rare,
    };
    match product {
        Some(Product {
            count,
            weight: of_count,
            product,
        }) => format!(
            "{name}: count {count}, weight S({}) = {of_count}; {rare}; product {of_count} x {weight} = {product}",
            count + 1
        ),
        None => format!("{name}: count 0; {rare}; no product"),
    }
}

/// The score of a window with at least one count above 0.
fn total(products: &[Option<Product>]) -> Option<u32> {
    let counted: Vec<&Product> = products.iter().flatten().collect();
    let is_hit = !counted.is_empty();
    is_hit.then(|| counted.iter().map(|product| product.product).sum())
}

/// Holds the total against the query's score.
fn compare(
    moment: &Moment,
    window: u32,
    query: &Query,
    total: Option<u32>,
    out: &mut dyn Write,
) -> Result<Outcome, Failure> {
    let hits = match found_by(&moment.probe, query) {
        Ok((hits, _)) => hits,
        Err(number) => {
            writeln!(out, "query {}", refused(number))?;
            return Ok(Outcome::Bad);
        }
    };
    let score = hits.iter().find(|hit| hit.0 == window).map(|hit| hit.1);
    // A full list leaves out what is not better than its last.
    let last = hits.get(PLACES - 1);
    let is_left_out = last
        .zip(total)
        .is_some_and(|(&last, total)| (total, window) < (last.1, last.0));
    let is_equal = score == total || score.is_none() && is_left_out;
    match score {
        Some(score) if is_equal => writeln!(out, "score {score}: equal")?,
        Some(score) => writeln!(out, "score {score}: NOT EQUAL")?,
        None if is_left_out => writeln!(out, "not listed: its list is full of 32 better ones")?,
        None if is_equal => writeln!(out, "not listed: equal")?,
        None => writeln!(out, "not listed: NOT EQUAL")?,
    }
    Ok(Outcome::good_if(is_equal))
}
