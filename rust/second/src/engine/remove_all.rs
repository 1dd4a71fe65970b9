//! Remove several closed windows together.

use super::remove::{all_postings, counts_of, remove};
use crate::limits::REMOVED_WINDOWS;
use crate::refusal::Refusal;
use crate::state::State;
use std::collections::BTreeSet;

/// Takes out all windows of a list, in the order given, or none of them.
pub fn remove_all(state: &mut State, card: &mut [u8], windows: &[u32]) -> Result<(), Refusal> {
    let on_card = all_postings(state, card)?;
    for &window in windows {
        counts_of(state, &on_card, window).ok_or(Refusal::Malformed)?;
    }
    if !is_list(windows) {
        return Err(Refusal::BadList);
    }
    // On copies, so that a refusal leaves nothing of the removals before it.
    let (mut state_after, mut card_after) = (state.clone(), card.to_vec());
    for &window in windows {
        remove(&mut state_after, &mut card_after, window)?;
    }
    *state = state_after;
    card.copy_from_slice(&card_after);
    Ok(())
}

/// Whether a list has neither too few windows nor too many, and none twice.
fn is_list(windows: &[u32]) -> bool {
    let different: BTreeSet<&u32> = windows.iter().collect();
    (1..=REMOVED_WINDOWS).contains(&windows.len()) && different.len() == windows.len()
}
