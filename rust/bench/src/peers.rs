//! The same windows and queries for this engine and for others: writes them as text, and times this engine's queries.

use crate::timing::once;
use gemsilver::{Hit, Identifier, Probe, Stretch};
use second::{engine, image, state::Hit as SecondHit, stretch::Stretch as SecondStretch};
use std::collections::BTreeMap;
use std::fs;
use std::path::Path;

const WINDOWS: usize = 5_000;
const QUERIES: usize = 250;
const NAMES: usize = 256;
const PLACES: usize = 10;
const BLOCKS: usize = 4_096;

/// Numbers that look random and are the same in every run.
struct Rng(u64);

impl Rng {
    fn below(&mut self, limit: usize) -> usize {
        self.0 = self
            .0
            .wrapping_mul(6_364_136_223_846_793_005)
            .wrapping_add(1_442_695_040_888_963_407);
        (self.0 >> 33) as usize % limit
    }

    /// An identifier: low numbers are met more often than high ones.
    fn name(&mut self) -> usize {
        self.below(NAMES).min(self.below(NAMES))
    }
}

fn name(number: usize) -> String {
    format!("EVENT{number:03}")
}

/// The counts of each window.
fn windows(rng: &mut Rng) -> Vec<BTreeMap<usize, usize>> {
    let window = |rng: &mut Rng| {
        let mut counts = BTreeMap::new();
        for _ in 0..4 + rng.below(29) {
            *counts.entry(rng.name()).or_default() += 1 + rng.below(5);
        }
        counts
    };
    (0..WINDOWS).map(|_| window(rng)).collect()
}

/// Queries of 1 to 5 different identifiers.
fn queries(rng: &mut Rng) -> Vec<Vec<usize>> {
    let query = |rng: &mut Rng, count: usize| {
        let mut names: Vec<usize> = Vec::new();
        while names.len() < count {
            let next = rng.name();
            if !names.contains(&next) {
                names.push(next);
            }
        }
        names
    };
    (0..QUERIES)
        .map(|place| query(rng, 1 + place % 5))
        .collect()
}

/// The lines of a file: words parted by spaces.
fn lines(rows: impl Iterator<Item = Vec<String>>) -> String {
    rows.map(|words| words.join(" ") + "\n").collect()
}

fn identifiers(names: &[String]) -> Vec<Identifier<'_>> {
    names.iter().map(|name| name[..].into()).collect()
}

/// Writes windows and queries to a folder, builds a card of them by the proved engine's calls, holds every answer to the second engine's, and prints the times.
pub fn run(folder: &Path) {
    let mut rng = Rng(20_261_115);
    let (windows, queries) = (windows(&mut rng), queries(&mut rng));
    let counted = |counts: &BTreeMap<usize, usize>| {
        counts
            .iter()
            .map(|(id, count)| format!("{} {count}", name(*id)))
            .collect()
    };
    let named = |query: &Vec<usize>| query.iter().map(|id| name(*id)).collect();
    fs::write(
        folder.join("windows.txt"),
        lines(windows.iter().map(counted)),
    )
    .expect("windows.txt");
    fs::write(folder.join("queries.txt"), lines(queries.iter().map(named))).expect("queries.txt");

    let buffers = [gemsilver::IMAGE, BLOCKS * 4_096, NAMES * 65];
    let [image, card, register] = buffers.map(|length| vec![0; length]);
    let mut probe = Probe::start(image, card, register).expect("a start");
    let built = once(|| {
        for counts in &windows {
            probe.open().expect("an open");
            for (id, count) in counts {
                for _ in 0..*count {
                    probe.event(name(*id)).expect("an event");
                }
            }
            probe.close().expect("a close");
            while probe.step().is_ok() {}
        }
    });
    let state = image::read(probe.image()).expect("an image");
    let names: Vec<Vec<String>> = queries.iter().map(named).collect();
    let mut told = String::new();
    for names in &names {
        let (mut hits, mut expected) = ([Hit::default(); PLACES], [SecondHit::default(); PLACES]);
        let found = probe.query(&identifiers(names), Stretch::ALL, &mut hits);
        let listed = found.expect("a query").hits;
        let names: Vec<&[u8]> = names.iter().map(String::as_bytes).collect();
        let (card, register) = (probe.card(), probe.register());
        let all = SecondStretch::ALL;
        let second = engine::query(&state, card, register, &names, all, &mut expected);
        assert_eq!(second.map(|found| usize::from(found.hits)), Ok(listed));
        for (hit, expected) in hits[..listed].iter().zip(&expected) {
            let expected = (u32::from(expected.window), expected.score);
            assert_eq!((hit.window, hit.score), expected);
            told += &format!("{} {} ", hit.window, hit.score);
        }
        told += "\n";
    }
    fs::write(folder.join("hits.txt"), told).expect("hits.txt");
    let asked: Vec<Vec<Identifier>> = names.iter().map(|names| identifiers(names)).collect();
    let mut least = f64::INFINITY;
    for _ in 0..7 {
        least = least.min(once(|| {
            for identifiers in &asked {
                let mut hits = [Hit::default(); PLACES];
                let found = probe.query(identifiers, Stretch::ALL, &mut hits);
                assert!(found.is_ok());
            }
        }));
    }
    let partitions = state.partitions.used;
    println!(
        "{WINDOWS} windows, {QUERIES} queries, top {PLACES}; {partitions} partitions; every score as the second engine's"
    );
    println!("{:>24} {:>16} {:>16}", "", "query, µs", "all windows, ms");
    println!(
        "{:>24} {:>16.1} {:>16.0}",
        "gemsilver",
        least / QUERIES as f64,
        built / 1e3
    );
}
