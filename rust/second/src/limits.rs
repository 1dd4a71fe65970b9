//! The sizes that everything else is measured by.

/// Bytes of a block.
pub const BLOCK: usize = 4096;
/// Bytes of a block before its link.
pub const CONTENT: usize = 4092;
/// The link of a partition's last block; also the first block of an empty output.
pub const NO_BLOCK: u16 = 65_534;
/// Bytes of a register entry: a length and room for the longest identifier.
pub const ENTRY: usize = 65;
/// The longest identifier.
pub const IDENTIFIER: usize = 64;
/// The highest identifier number.
pub const LAST_NUMBER: u16 = 1023;
/// The most identifiers of one window.
pub const WINDOW_IDENTIFIERS: usize = 64;
/// The most events of one window, and the largest size of a count.
pub const COUNT: u16 = 32_767;
/// The most buffered postings.
pub const BUFFER: usize = 128;
/// The most finished partitions.
pub const PARTITIONS: usize = 51;
/// The highest level.
pub const LAST_LEVEL: u16 = 5;
/// The most partitions of level 0.
pub const LEVEL_ZERO: usize = 16;
/// How many partitions a merge takes, below the highest level.
pub const FAN_IN: usize = 8;
/// How many partitions a merge of the highest level takes.
pub const LAST_FAN_IN: usize = 3;
/// How many (identifier, window) pairs a merge step takes.
pub const STEP: usize = 16;
/// The most identifiers of a query.
pub const QUERY_IDENTIFIERS: usize = 5;
/// The most places in a list of hits.
pub const HITS: usize = 32;
/// The most windows that are removed together.
pub const REMOVED_WINDOWS: usize = 32;

/// Whether a card may have this many bytes.
pub fn is_card_length(bytes: usize) -> bool {
    bytes.is_multiple_of(BLOCK) && (4..=4096).contains(&(bytes / BLOCK))
}

/// Whether a register may have this many bytes.
pub fn is_register_length(bytes: usize) -> bool {
    bytes.is_multiple_of(ENTRY) && (1..=1024).contains(&(bytes / ENTRY))
}

/// How many partitions of a level may stand in the list.
pub fn most_of_level(level: u16) -> usize {
    match level {
        0 => LEVEL_ZERO,
        LAST_LEVEL => LAST_FAN_IN,
        _ => FAN_IN,
    }
}

/// How many partitions of a level one merge takes.
pub fn fan_in(level: u16) -> usize {
    if level == LAST_LEVEL {
        LAST_FAN_IN
    } else {
        FAN_IN
    }
}
