//! Count an event.

use super::flush::write_buffer;
use crate::limits::{BUFFER, COUNT, ENTRY, WINDOW_IDENTIFIERS};
use crate::postings::{Sums, add, nonzero};
use crate::refusal::Refusal;
use crate::register::{enter, is_identifier, number_of, read};
use crate::rules::{check_card, check_register, check_state};
use crate::state::{Buffer, Listed, Posting, State};

/// Counts an identifier in the open window.
pub fn event(
    state: &mut State,
    card: &mut [u8],
    register: &mut [u8],
    identifier: &[u8],
) -> Result<(), Refusal> {
    check_state(state)?;
    check_card(state, card)?;
    check_register(state, register)?;
    let names = read(register).ok_or(Refusal::Malformed)?;
    if !is_identifier(identifier) {
        return Err(Refusal::BadIdentifier);
    }
    if state.windows.open == 0 {
        return Err(Refusal::WrongWindow);
    }
    if state.windows.events == COUNT {
        return Err(Refusal::UsedUp);
    }
    let id = known_or_next(&names, register.len() / ENTRY, identifier)?;
    let listed = with_identifier(&state.listed.to_list(), id)?;
    if needs_flush(state, id) {
        write_buffer(state, card)?;
    }
    enter(register, id, identifier);
    state.listed = Listed::from_list(&listed);
    count_in_buffer(state, id);
    state.windows.events += 1;
    Ok(())
}

/// The identifier's number: the one it has, or else the next one.
fn known_or_next(names: &[Vec<u8>], entries: usize, identifier: &[u8]) -> Result<u16, Refusal> {
    match number_of(names, identifier) {
        Some(id) => Ok(id),
        None if names.len() == entries => Err(Refusal::FullRegister),
        None => Ok(names.len() as u16),
    }
}

/// The open window's identifiers with this one among them.
fn with_identifier(listed: &[u16], id: u16) -> Result<Vec<u16>, Refusal> {
    let mut listed = listed.to_vec();
    if !listed.contains(&id) {
        if listed.len() == WINDOW_IDENTIFIERS {
            return Err(Refusal::FullWindow);
        }
        listed.push(id);
    }
    Ok(listed)
}

/// Whether the pair is new to a full buffer.
fn needs_flush(state: &State, id: u16) -> bool {
    let buffer = state.buffer.to_list();
    let is_pair = |posting: &Posting| posting.id == id && posting.window == state.windows.open;
    buffer.len() == BUFFER && !buffer.iter().any(is_pair)
}

fn count_in_buffer(state: &mut State, id: u16) {
    let one = Posting {
        id,
        window: state.windows.open,
        count: 1,
    };
    let mut sums = Sums::new();
    add(&mut sums, &state.buffer.to_list());
    add(&mut sums, &[one]);
    state.buffer = Buffer::from_list(&nonzero(&sums));
}
