//! Tell the mean count of an identifier.

use super::query::read_places;
use crate::refusal::Refusal;
use crate::state::State;
use crate::stretch::Stretch;

/// The mean count of an identifier, as a whole number and what is left over:
/// quotient times windows and the remainder are the sum of the counts.
#[derive(Clone, Copy, PartialEq, Eq, Debug)]
pub struct Mean {
    /// The sum divided by the number of windows, without its fraction.
    pub quotient: u16,
    /// What the division leaves over, below the number of windows.
    pub remainder: u16,
    /// F: in how many closed windows the identifier has a count above 0.
    pub windows: u16,
}

/// Divides the sum of an identifier's counts above 0 in closed windows by the
/// number of these windows.
pub fn mean(
    state: &State,
    card: &[u8],
    register: &[u8],
    identifier: &[u8],
) -> Result<Mean, Refusal> {
    let reading = read_places(state, card, register, &[identifier], Stretch::ALL)?;
    let counts = reading.counts(&state.windows, Stretch::ALL);
    if counts.is_empty() {
        return Err(Refusal::Uncounted);
    }
    // At most 65,535 counts of at most 32,767 each: their sum fits 32 bits.
    let sum: u32 = counts.values().map(|count| count.unsigned_abs()).sum();
    let windows = counts.len() as u32;
    Ok(Mean {
        quotient: (sum / windows) as u16,
        remainder: (sum % windows) as u16,
        windows: windows as u16,
    })
}
