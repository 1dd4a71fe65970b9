//! Words of an image, a card or a list of hits, and where an image has which.

/// The places of some words of an image.
pub mod at {
    pub const CARD: usize = 0;
    pub const REGISTER: usize = 1;
    pub const LAST: usize = 2;
    pub const LIVE: usize = 3;
    pub const OPEN: usize = 4;
    pub const EVENTS: usize = 5;
    pub const LISTED: usize = 6;
    pub const BUFFER: usize = 71;
    pub const PARTITIONS: usize = 456;
    /// Words of a partition's record; of these the length, the lowest and the highest window.
    pub const RECORD: usize = 5;
    pub const LENGTH: usize = 2;
    pub const LOWEST: usize = 3;
    pub const HIGHEST: usize = 4;
    pub const TAKEN: usize = 712;
    pub const MERGE: usize = 713;
    pub const STEPS: usize = 715;

    /// Where a partition's record begins.
    pub fn record(number: usize) -> usize {
        PARTITIONS + 1 + RECORD * number
    }
}

/// A word of an image or of another list of words.
pub fn word(bytes: &[u8], place: usize) -> u32 {
    let field = &bytes[4 * place..][..4];
    u32::from_le_bytes(field.try_into().expect("a word has four bytes"))
}

/// Puts a word in its place.
pub fn put(bytes: &mut [u8], place: usize, word: u32) {
    bytes[4 * place..][..4].copy_from_slice(&word.to_le_bytes());
}
