//! Open a window.

use crate::refusal::Refusal;
use crate::rules::check_state;
use crate::state::State;

/// Opens a window and answers its number. No query finds it before its close.
pub fn open(state: &mut State) -> Result<u16, Refusal> {
    check_state(state)?;
    if state.windows.open != 0 {
        return Err(Refusal::WrongWindow);
    }
    if state.windows.last == u16::MAX {
        return Err(Refusal::UsedUp);
    }
    state.windows.last += 1;
    state.windows.open = state.windows.last;
    Ok(state.windows.open)
}
