//! A second engine for the window index on a flash card.
//!
//! It exists to be held against the first one, so it is written as plainly as
//! possible: every call reads all it needs into vectors and maps, refuses, and
//! only then writes. One function states one rule.
//!
//! - [`engine`]: the calls.
//! - [`state`]: what is remembered between calls; [`refusal`]: why a call is refused.
//! - [`image`]: the state as bytes.
//! - [`stretch`]: the windows that a query is asked over.
//! - [`commands`]: the command program, a line at a time.
//! - [`ledger`]: what the calls must answer, kept without any bytes and
//!   without any code of the engine.
//! - [`wrong`]: the calls of wrong engines, by which tests are graded;
//!   [`faults`]: what is wrong with each of them.

#![forbid(unsafe_code)]

mod card;
pub mod commands;
pub mod engine;
pub mod faults;
pub mod image;
pub mod ledger;
mod limits;
mod merge;
mod partition;
mod postings;
pub mod refusal;
pub mod register;
mod rules;
pub mod state;
pub mod stretch;
pub mod weights;
pub mod wrong;
