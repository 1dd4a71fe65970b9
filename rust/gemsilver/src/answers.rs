//! What goes into calls and comes out of them.

use crate::{ENTRY, Refusal};
use core::fmt;
use core::marker::PhantomData;
use core::slice;

/// An identifier: any bytes. The engine takes 1 to 64 of them, compares them all, and refuses every other length.
///
/// It is laid out as C has it, a pointer and a length, so that a list of identifiers is handed on as it is.
///
/// ```
/// use gemsilver::Identifier;
///
/// let identifier = Identifier::from("LUCKY");
/// assert_eq!(identifier.bytes(), b"LUCKY");
/// assert_eq!(identifier, Identifier::from(&b"LUCKY".to_vec()));
/// ```
#[derive(Clone, Copy)]
#[repr(C)]
pub struct Identifier<'a> {
    start: *const u8,
    length: usize,
    bytes: PhantomData<&'a [u8]>,
}

impl<'a> Identifier<'a> {
    /// The identifier's bytes.
    pub fn bytes(self) -> &'a [u8] {
        // Sound: both fields come from one slice that lives as long, and nothing changes them.
        unsafe { slice::from_raw_parts(self.start, self.length) }
    }
}

/// Whatever lends bytes: slices, arrays, texts, vectors.
impl<'a, T: AsRef<[u8]> + ?Sized> From<&'a T> for Identifier<'a> {
    fn from(lent: &'a T) -> Self {
        let bytes = lent.as_ref();
        Identifier {
            start: bytes.as_ptr(),
            length: bytes.len(),
            bytes: PhantomData,
        }
    }
}

impl PartialEq for Identifier<'_> {
    fn eq(&self, other: &Self) -> bool {
        self.bytes() == other.bytes()
    }
}

impl Eq for Identifier<'_> {}

impl fmt::Debug for Identifier<'_> {
    fn fmt(&self, out: &mut fmt::Formatter<'_>) -> fmt::Result {
        write!(out, "Identifier({})", self.bytes().escape_ascii())
    }
}

// Sound: it is a slice lent for reading, in another form.
unsafe impl Send for Identifier<'_> {}
// Sound: as above.
unsafe impl Sync for Identifier<'_> {}

/// The windows that a query is asked over, from a first to a last one.
///
/// A first that exceeds the last is refused. 0 is no window, so that 0 to 0 is an empty stretch.
///
/// ```
/// use gemsilver::Stretch;
///
/// let complaint = Stretch { first: 200, last: 340 };
/// assert_ne!(complaint, Stretch::ALL);
/// ```
#[derive(Clone, Copy, PartialEq, Eq, Hash, Debug)]
pub struct Stretch {
    /// The first window.
    pub first: u16,
    /// The last window.
    pub last: u16,
}

impl Stretch {
    /// All windows there can be: 1 to 65,535.
    pub const ALL: Stretch = Stretch {
        first: 1,
        last: 65_535,
    };
}

/// A window that a query lists: its number and its score, at most 306,000.
#[derive(Clone, Copy, PartialEq, Eq, Default, Debug)]
#[repr(C)]
pub struct Hit {
    /// The window.
    pub window: u32,
    /// Its score.
    pub score: u32,
}

impl Hit {
    /// A list of hits as the bytes that the exported query writes: two little-endian words a place.
    pub(crate) fn bytes_of(hits: &mut [Hit]) -> &mut [u8] {
        const { assert!(cfg!(target_endian = "little") && size_of::<Hit>() == 8) };
        // Sound: a hit is two words without a gap, and any bytes are two words.
        unsafe { slice::from_raw_parts_mut(hits.as_mut_ptr().cast(), size_of_val(hits)) }
    }
}

/// An identifier as an entry of the register has it, by which plans are written: its length, its bytes, then zeros.
///
/// One of more than 64 bytes makes an entry too, with a length that no identifier has, so that a forecast stops there as the event would.
///
/// ```
/// use gemsilver::Entry;
///
/// let entry = Entry::from("LUCKY");
/// assert_eq!(entry.bytes()[..7], *b"\x05LUCKY\0");
/// assert_eq!(Entry::from(&[b'x'; 65]).bytes()[0], 65);
/// ```
#[derive(Clone, Copy, PartialEq, Eq)]
#[repr(transparent)]
pub struct Entry([u8; ENTRY]);

impl Entry {
    /// The entry's bytes.
    pub fn bytes(&self) -> &[u8; ENTRY] {
        &self.0
    }

    /// Entries one after the other, as a plan is lent to the exported forecast.
    pub(crate) fn bytes_of(entries: &[Entry]) -> &[u8] {
        // Sound: an entry is its bytes and nothing else.
        unsafe { slice::from_raw_parts(entries.as_ptr().cast(), size_of_val(entries)) }
    }
}

/// Whatever lends bytes: slices, arrays, texts, vectors.
impl<T: AsRef<[u8]> + ?Sized> From<&T> for Entry {
    fn from(lent: &T) -> Self {
        let bytes = lent.as_ref();
        let mut entry = [0; ENTRY];
        entry[0] = bytes.len().min(255) as u8;
        for (place, byte) in entry[1..].iter_mut().zip(bytes) {
            *place = *byte;
        }
        Entry(entry)
    }
}

impl fmt::Debug for Entry {
    fn fmt(&self, out: &mut fmt::Formatter<'_>) -> fmt::Result {
        let length = usize::from(self.0[0]).min(ENTRY - 1);
        write!(out, "Entry({})", self.0[1..=length].escape_ascii())
    }
}

/// What a query answers beside its list of hits.
#[derive(Clone, Copy, PartialEq, Eq, Debug)]
pub struct Found {
    /// How many places of the list are filled; the others are as they were.
    pub hits: usize,
    /// How many stored postings were taken up: of the buffer, and of the partitions that the stretch does not pass over.
    pub taken: u64,
}

/// The mean count of an identifier: quotient times windows and the remainder are the sum of its counts.
#[derive(Clone, Copy, PartialEq, Eq, Debug)]
pub struct Mean {
    /// The sum divided by the number of windows, without its fraction.
    pub quotient: u32,
    /// What the division leaves over, below the number of windows.
    pub remainder: u32,
    /// In how many closed windows the identifier has a count above 0.
    pub windows: u32,
}

/// What a planned session would come to. All is counted up to the call that would be refused first, if there is one.
#[derive(Clone, Copy, PartialEq, Eq, Debug)]
pub struct Forecast {
    /// How many of its events would write the buffer to the card first.
    pub flushes: u32,
    /// How many blocks finished partitions would have.
    pub blocks: u32,
    /// How many entries of the register would be used.
    pub entries: u32,
    /// The call that would be refused first.
    pub stop: Option<Stop>,
}

/// The call of a planned session that would be refused first.
#[derive(Clone, Copy, PartialEq, Eq, Debug)]
pub struct Stop {
    /// The window's place in the plan, from 1.
    pub window: u64,
    /// The event's place in its window, from 1; 0 where the window would not be opened.
    pub event: u64,
    /// Why the call would be refused.
    pub refusal: Refusal,
}
