//! Gemsilver, the proved search engine of a probe, for Rust.
//!
//! A [`Probe`] counts events by identifier in windows of play, keeps the counts on a card, and tells which closed windows match a set of
//! identifiers best. It owns or borrows three buffers: the state's image, the card and the register. Each call is one exported function of
//! the proved crates, whose contract asks nothing of its caller: it ends, stays inside the buffers, and either does its work or gives a
//! [`Refusal`] and changes nothing; a refused start alone leaves an image of zeros. What this crate adds is not proved: it hands slices on and takes numbers apart.
//!
//! No call allocates, and the crate needs neither an allocator nor an operating system. The archive that it links is for x86-64 Linux.
//!
//! - [`Probe`]: the calls; [`bytes`]: the same calls on three slices.
//! - [`Identifier`], [`Stretch`], [`Hit`], [`Found`], [`Mean`], [`Entry`], [`Forecast`]: what goes in and comes out; [`Refusal`]: why a call is refused.
//! - [`Snapshot`]: a probe in one file.
//!
//! ```
//! use gemsilver::{Hit, IMAGE, Probe, Stretch};
//!
//! let mut probe = Probe::start(vec![0; IMAGE], vec![0; 16 * 4096], vec![0; 64 * 65])?;
//! for events in [&["LUCKY", "LUCKY", "LUCKY", "TILT"][..], &["LUCKY"]] {
//!     probe.open()?;
//!     for event in events {
//!         probe.event(event)?;
//!     }
//!     probe.close()?;
//! }
//! let mut hits = [Hit::default(); 2];
//! let found = probe.query(&["LUCKY".into(), "TILT".into()], Stretch::ALL, &mut hits)?;
//! assert_eq!((found.hits, found.taken), (2, 3));
//! assert_eq!(hits, [Hit { window: 1, score: 256 }, Hit { window: 2, score: 0 }]);
//! # Ok::<(), gemsilver::Refusal>(())
//! ```

#![no_std]

mod answers;
pub mod bytes;
mod exported;
mod probe;
mod refusal;
mod snapshot;

pub use answers::{Entry, Forecast, Found, Hit, Identifier, Mean, Stop, Stretch};
pub use probe::Probe;
pub use refusal::Refusal;
pub use snapshot::{Part, Snapshot, SnapshotError, VERSION};

/// Bytes of a state's image: 716 little-endian words.
pub const IMAGE: usize = 2_864;

/// Bytes of a block of the card; a card has 4 to 4,096 blocks.
pub const BLOCK: usize = 4_096;

/// Bytes of an entry of the register or of a plan; a register has 1 to 1,024 entries.
pub const ENTRY: usize = 65;
