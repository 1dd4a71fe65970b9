//! The proved engine held against the second one, and its snapshots read back.

mod closing;
mod damage;
mod damaged;
mod engines;
mod forecasts;
mod histories;
mod history;
mod levels;
mod means;
mod pair;
mod parts;
#[path = "../../../second/tests/suite/planned.rs"]
mod planned;
mod registers;
mod rng;
mod rules;
mod scores;
mod snapshots;
mod starts;
mod stretches;
mod tally;
mod together;
mod words;
