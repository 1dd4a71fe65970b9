//! The calls on three slices: the state's image, the card and the register.
//!
//! Each is one exported function of the proved crates. A call is given the buffers that it may read or write, in this order; a
//! [`Probe`](crate::Probe) has them together, and an example for each.
//!
//! ```
//! use gemsilver::{IMAGE, bytes};
//!
//! let (mut image, mut card, mut register) = ([0; IMAGE], [0; 4 * 4096], [0; 65]);
//! bytes::start(&mut image, &mut card, &mut register)?;
//! assert_eq!(bytes::open(&mut image), Ok(1));
//! bytes::event(&mut image, &mut card, &mut register, b"LUCKY")?;
//! # Ok::<(), gemsilver::Refusal>(())
//! ```

use crate::exported;
use crate::{Forecast, Found, Identifier, Mean, Refusal, Stop, Stretch};

/// Bytes of a place in a list of hits: the window and the score, a little-endian word each.
pub const HIT: usize = 8;

/// A number above every window: an open's refusals are told from there on.
const REFUSED: u32 = 65_536;

/// The refusal that a call told by its number.
fn refusal(number: u32) -> Refusal {
    Refusal::of_number(number).expect("the engine refuses with a number from 1 to 17")
}

/// Nothing, or the refusal.
fn done(number: u32) -> Result<(), Refusal> {
    match number {
        0 => Ok(()),
        _ => Err(refusal(number)),
    }
}

/// Whether a register has 1 to 1,024 whole entries and is well formed.
///
/// ```
/// use gemsilver::bytes::register_ok;
///
/// let mut register = [0; 2 * 65];
/// assert!(register_ok(&register));
/// register[65..67].copy_from_slice(&[1, b'A']); // the second entry is used, and the first is not
/// assert!(!register_ok(&register));
/// ```
pub fn register_ok(register: &[u8]) -> bool {
    // Sound: the pointer and the length are those of one slice, which is only read.
    unsafe { exported::gemsilver_register_ok(register.as_ptr(), register.len()) == 1 }
}

/// Makes a fresh card and an empty register, and writes the image of the state that goes with them. Where it is refused, card and
/// register stay as they are and the image is that of a state of zeros, with which every call is refused.
pub fn start(image: &mut [u8], card: &mut [u8], register: &mut [u8]) -> Result<(), Refusal> {
    // Sound: each pointer and length are those of one slice, and slices lent for writing do not overlap.
    done(unsafe {
        exported::gemsilver_start(
            image.as_mut_ptr(),
            image.len(),
            card.as_mut_ptr(),
            card.len(),
            register.as_mut_ptr(),
            register.len(),
        )
    })
}

/// Opens a window and answers its number.
pub fn open(image: &mut [u8]) -> Result<u32, Refusal> {
    // Sound: the pointer and the length are those of one slice lent for writing.
    let number = unsafe { exported::gemsilver_open(image.as_mut_ptr(), image.len()) };
    match number.checked_sub(REFUSED) {
        None => Ok(number),
        Some(number) => Err(refusal(number)),
    }
}

/// Closes the open window, which queries find from then on.
pub fn close(image: &mut [u8]) -> Result<(), Refusal> {
    // Sound: the pointer and the length are those of one slice lent for writing.
    done(unsafe { exported::gemsilver_close(image.as_mut_ptr(), image.len()) })
}

/// Counts an identifier in the open window.
pub fn event(
    image: &mut [u8],
    card: &mut [u8],
    register: &mut [u8],
    identifier: &[u8],
) -> Result<(), Refusal> {
    // Sound: each pointer and length are those of one slice, slices lent for writing overlap nothing, and the identifier is only
    // read.
    done(unsafe {
        exported::gemsilver_event(
            image.as_mut_ptr(),
            image.len(),
            card.as_mut_ptr(),
            card.len(),
            register.as_mut_ptr(),
            register.len(),
            identifier.as_ptr(),
            identifier.len(),
        )
    })
}

/// Writes the buffered postings to the card.
pub fn flush(image: &mut [u8], card: &mut [u8]) -> Result<(), Refusal> {
    // Sound: each pointer and length are those of one slice, and slices lent for writing do not overlap.
    done(unsafe {
        exported::gemsilver_flush(
            image.as_mut_ptr(),
            image.len(),
            card.as_mut_ptr(),
            card.len(),
        )
    })
}

/// Takes out a closed window.
pub fn remove(image: &mut [u8], card: &mut [u8], window: u32) -> Result<(), Refusal> {
    // Sound: each pointer and length are those of one slice, and slices lent for writing do not overlap.
    done(unsafe {
        exported::gemsilver_remove(
            image.as_mut_ptr(),
            image.len(),
            card.as_mut_ptr(),
            card.len(),
            window,
        )
    })
}

/// Takes out all windows of a list, of 1 to 32 different ones, in the order given, or none of them.
pub fn remove_all(image: &mut [u8], card: &mut [u8], windows: &[u32]) -> Result<(), Refusal> {
    // Sound: each pointer and length are those of one slice, slices lent for writing overlap nothing, and the list of windows,
    // which is aligned as its numbers are, is only read.
    done(unsafe {
        exported::gemsilver_remove_all(
            image.as_mut_ptr(),
            image.len(),
            card.as_mut_ptr(),
            card.len(),
            windows.as_ptr(),
            windows.len(),
        )
    })
}

/// Takes a step of the merge in progress, or begins the one that is due.
pub fn step(image: &mut [u8], card: &mut [u8]) -> Result<(), Refusal> {
    // Sound: each pointer and length are those of one slice, and slices lent for writing do not overlap.
    done(unsafe {
        exported::gemsilver_step(
            image.as_mut_ptr(),
            image.len(),
            card.as_mut_ptr(),
            card.len(),
        )
    })
}

/// Fills the list, of [`HIT`] bytes a place, with the closed windows of the stretch that score highest on the identifiers. Bytes past the last
/// whole place, and places past the last hit, stay as they are.
pub fn query(
    image: &[u8],
    card: &[u8],
    register: &[u8],
    identifiers: &[Identifier<'_>],
    stretch: Stretch,
    hits: &mut [u8],
) -> Result<Found, Refusal> {
    // Sound: each pointer and length are those of one slice, those of the identifiers live as long as the call, and all but the
    // list of hits, which overlaps nothing, are only read.
    let number = unsafe {
        exported::gemsilver_query(
            image.as_ptr(),
            image.len(),
            card.as_ptr(),
            card.len(),
            register.as_ptr(),
            register.len(),
            identifiers.as_ptr(),
            identifiers.len(),
            stretch.first,
            stretch.last,
            hits.as_mut_ptr(),
            hits.len(),
        )
    };
    // The refusal in the lowest byte, the hits in the next, the postings taken above.
    done((number % 256) as u32)?;
    Ok(Found {
        hits: (number / 256 % 256) as usize,
        taken: number / 65_536,
    })
}

/// Divides the sum of an identifier's counts above 0 in closed windows by the number of these windows.
pub fn mean(
    image: &[u8],
    card: &[u8],
    register: &[u8],
    identifier: &[u8],
) -> Result<Mean, Refusal> {
    // Sound: each pointer and length are those of one slice, and all are only read.
    let number = unsafe {
        exported::gemsilver_mean(
            image.as_ptr(),
            image.len(),
            card.as_ptr(),
            card.len(),
            register.as_ptr(),
            register.len(),
            identifier.as_ptr(),
            identifier.len(),
        )
    };
    // Four numbers of 16 bits, the refusal in the lowest.
    let part = |place: u32| (number >> (16 * place) & 0xffff) as u32;
    done(part(0))?;
    Ok(Mean {
        windows: part(1),
        remainder: part(2),
        quotient: part(3),
    })
}

/// Tells what opening, counting and closing the windows of a plan one after the other would come to, with no merge steps between. The plan has
/// [`ENTRY`](crate::ENTRY) bytes for each event, as the register has them for an identifier, and `counts` tells how many of them belong to each window.
///
/// It is refused with 3 where the plan is not whole entries, where the counts do not add up to them, or where an entry has a byte other than zero after
/// its identifier. A length byte that no identifier has is no such fault: the plan stops there.
///
/// ```
/// use gemsilver::{Forecast, IMAGE, Refusal, Stop, bytes};
///
/// let (mut image, mut card, mut register) = ([0; IMAGE], [0; 4 * 4096], [0; 65]);
/// bytes::start(&mut image, &mut card, &mut register)?;
/// let mut plan = [0; 2 * 65];
/// plan[..5].copy_from_slice(b"\x04TILT");
/// let stop = Some(Stop { window: 2, event: 1, refusal: Refusal::BadIdentifier }); // the second entry is empty
/// let told = bytes::forecast(&image, &register, &plan, &[1, 1]);
/// assert_eq!(told, Ok(Forecast { flushes: 0, blocks: 0, entries: 1, stop }));
/// assert_eq!(bytes::forecast(&image, &register, &plan, &[1]), Err(Refusal::Malformed));
/// # Ok::<(), Refusal>(())
/// ```
pub fn forecast(
    image: &[u8],
    register: &[u8],
    plan: &[u8],
    counts: &[u32],
) -> Result<Forecast, Refusal> {
    let mut told = [0; 6];
    // Sound: each pointer and length are those of one slice, all are only read, the counts are aligned as their numbers are, and
    // there is room for the six numbers that are told.
    done(unsafe {
        exported::gemsilver_forecast(
            image.as_ptr(),
            image.len(),
            register.as_ptr(),
            register.len(),
            plan.as_ptr(),
            plan.len(),
            counts.as_ptr(),
            counts.len(),
            told.as_mut_ptr(),
        )
    })?;
    let [flushes, blocks, entries, window, event, number] = told;
    // Flushes are at most 16, blocks 51 times 4,096, and entries 1,024.
    let [flushes, blocks, entries] = [flushes, blocks, entries].map(|count| count as u32);
    let stop = match number {
        0 => None,
        _ => Some(Stop {
            window,
            event,
            refusal: refusal(number as u32),
        }),
    };
    Ok(Forecast {
        flushes,
        blocks,
        entries,
        stop,
    })
}
