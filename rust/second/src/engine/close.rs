//! Close the open window.

use crate::refusal::Refusal;
use crate::rules::check_state;
use crate::state::{Listed, State};

/// Closes the open window: from its close it counts in N and is found by queries.
/// Without events it never existed, and its number is given again.
pub fn close(state: &mut State) -> Result<(), Refusal> {
    check_state(state)?;
    if state.windows.open == 0 {
        return Err(Refusal::WrongWindow);
    }
    if state.windows.events == 0 {
        state.windows.last -= 1;
    } else {
        state.windows.live += 1;
    }
    state.windows.open = 0;
    state.windows.events = 0;
    state.listed = Listed::default();
    Ok(())
}
