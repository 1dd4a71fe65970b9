//! The laboratory's command: held against independent programs, by exact cases, and under damage.

mod answers;
mod calls;
mod commands;
mod damage;
mod display;
mod examples;
mod folder;
mod history;
mod json;
mod lessons;
mod page;
mod refusals;
#[path = "../../../second/tests/suite/rng.rs"]
mod rng;
mod wrong;
