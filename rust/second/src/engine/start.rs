//! Start: a fresh card.

use crate::limits::{BLOCK, is_card_length, is_register_length};
use crate::refusal::Refusal;
use crate::state::{Lengths, State};

/// Makes a fresh card and an empty register, and gives the state that goes with
/// them. A refused start gives the state of zeros.
pub fn start(card: &mut [u8], register: &mut [u8]) -> (State, Result<(), Refusal>) {
    if !is_card_length(card.len()) || !is_register_length(register.len()) {
        return (State::default(), Err(Refusal::WrongLength));
    }
    card.fill(255);
    register.fill(0);
    let state = State {
        lengths: Lengths {
            card: card.len() as u32,
            register: register.len() as u32,
        },
        taken: (card.len() / BLOCK - 1) as u16,
        ..State::default()
    };
    (state, Ok(()))
}
