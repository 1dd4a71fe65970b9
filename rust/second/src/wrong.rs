//! The calls of a wrong engine: those of the second engine with one fault.
//!
//! These are the calls that a fault can change. A wrong engine has its other
//! calls from [`engine`].

use crate::engine::{self, Found, query_with, step_with};
use crate::faults::Fault;
use crate::refusal::Refusal;
use crate::register::is_identifier;
use crate::state::{Hit, State};
use crate::stretch::Stretch;

/// How much of an identifier the engine that cuts them keeps.
const KEPT: usize = 16;

/// Counts an identifier in the open window.
pub fn event(
    fault: Fault,
    state: &mut State,
    card: &mut [u8],
    register: &mut [u8],
    identifier: &[u8],
) -> Result<(), Refusal> {
    engine::event(state, card, register, kept(fault, identifier))
}

/// Takes the next pairs of the merge in progress, or begins the one that is due.
pub fn step(fault: Fault, state: &mut State, card: &mut [u8]) -> Result<(), Refusal> {
    step_with(Some(fault), state, card)
}

/// Fills the list with the closed windows of the stretch that score highest on the identifiers.
pub fn query(
    fault: Fault,
    state: &State,
    card: &[u8],
    register: &[u8],
    ids: &[&[u8]],
    stretch: Stretch,
    hits: &mut [Hit],
) -> Result<Found, Refusal> {
    let ids: Vec<&[u8]> = ids.iter().map(|id| kept(fault, id)).collect();
    query_with(Some(fault), state, card, register, &ids, stretch, hits)
}

/// What the engine keeps of an identifier. One that is too long stays as it is,
/// so that it is refused.
fn kept(fault: Fault, identifier: &[u8]) -> &[u8] {
    match fault {
        Fault::CutIdentifiers if is_identifier(identifier) && identifier.len() > KEPT => {
            &identifier[..KEPT]
        }
        _ => identifier,
    }
}
