//! Where a window's counts lie.

use crate::text::{count, identifier, signed};
use crate::view::{Posting, View};
use std::cmp::Reverse;
use std::collections::BTreeSet;
use std::fmt::Write;

/// A row of the listing: the identifier's number, the place, the count.
type Row = (usize, String, i32);

/// Every place where a window has counts, identifier by identifier, each with the sum. Where identifiers are named, theirs alone are listed.
pub fn listing(view: &View, window: u32, named: &[Vec<u8>]) -> String {
    let mut rows = rows(view, window);
    if rows.is_empty() {
        return format!("window {window}: no counts anywhere\n");
    }
    let ids: BTreeSet<usize> = rows.iter().map(|row| row.0).collect();
    rows.retain(|row| {
        let is_named = |name: &Vec<u8>| named.contains(name);
        named.is_empty() || view.names.get(row.0).is_some_and(is_named)
    });
    let mut text = format!(
        "window {window}: {} in {}\n",
        count(ids.len(), "identifier"),
        count(places(view, window), "place")
    );
    let name_width = rows.iter().map(|row| view.name(row.0).len()).max();
    let place_width = rows.iter().map(|row| row.1.len()).max();
    let (name_width, place_width) = (name_width.unwrap_or(0), place_width.unwrap_or(0));
    for (id, place, sum) in &rows {
        let (name, sum) = (view.name(*id), signed(*sum));
        let _ = writeln!(text, "{name:name_width$}  {place:place_width$}  {sum}");
    }
    let listed: BTreeSet<String> = rows.iter().map(|row| view.name(row.0)).collect();
    for name in named.iter().map(|name| identifier(name)) {
        if !listed.contains(&name) {
            let _ = writeln!(text, "{name}  no counts");
        }
    }
    text
}

fn rows(view: &View, window: u32) -> Vec<Row> {
    let mut rows = Vec::new();
    for (&(id, of), &sum) in &view.sums() {
        if of != Reverse(window) {
            continue;
        }
        for (place, stored) in view.partitions.iter().enumerate() {
            if let Some(count) = count_in(&stored.postings, id, window) {
                let place = format!("partition {}, level {}", place + 1, stored.level);
                rows.push((id, place, count));
            }
        }
        if let Some(count) = count_in(&view.buffer, id, window) {
            rows.push((id, "buffer".to_string(), count));
        }
        rows.push((id, "sum".to_string(), sum));
        let written = view.merge.as_ref().map_or(&[][..], |merge| merge.written());
        if let Some(count) = count_in(written, id, window) {
            rows.push((id, "output, not read".to_string(), count));
        }
    }
    rows
}

/// How many partitions have counts of the window, the buffer as one more.
fn places(view: &View, window: u32) -> usize {
    let on_card = view.partitions.iter().map(|stored| &stored.postings);
    let lists = on_card.chain([&view.buffer]);
    let has_window = |list: &&Vec<Posting>| list.iter().any(|posting| posting.window == window);
    lists.filter(has_window).count()
}

fn count_in(postings: &[Posting], id: usize, window: u32) -> Option<i32> {
    let is_pair = |posting: &&Posting| posting.id == id && posting.window == window;
    postings.iter().find(is_pair).map(|posting| posting.count)
}
