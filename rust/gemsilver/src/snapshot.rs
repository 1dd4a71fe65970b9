//! A probe in one file.
//!
//! docs/FORMAT.md tells it byte by byte: a magic, a version, three lengths, image, card and register, and a CRC-32 of it all.

use crate::{BLOCK, ENTRY, IMAGE, Probe};
use core::fmt;

/// The version that is written, and the only one that is read.
pub const VERSION: u32 = 2;

/// What a snapshot begins with. A line end and an end-of-file mark are in it, so that a copy made as text shows at once.
const MAGIC: &[u8; 12] = b"GEMSILVER\r\n\x1a";
/// Bytes before the image.
const HEADER: usize = 28;
/// Bytes of the CRC.
const CRC: usize = 4;

/// A probe in one file: image, card and register as they were at one moment.
///
/// [`Probe::snapshot`] makes one; what is read back is lent from the file's bytes. A snapshot that is read is whole: that its state, card and
/// register keep their rules is judged by the calls made on it.
#[derive(Clone, Copy, PartialEq, Eq, Debug)]
pub struct Snapshot<'a> {
    /// The state's image.
    pub image: &'a [u8],
    /// The card.
    pub card: &'a [u8],
    /// The register.
    pub register: &'a [u8],
}

/// A part of a snapshot.
#[derive(Clone, Copy, PartialEq, Eq, Debug)]
pub enum Part {
    /// The state's image.
    Image,
    /// The card.
    Card,
    /// The register.
    Register,
}

/// What is wrong with a file that should be a snapshot.
#[derive(Clone, Copy, PartialEq, Eq, Debug)]
pub enum SnapshotError {
    /// It does not begin as one: the first byte that differs.
    Magic {
        /// The byte's place, from 0.
        at: usize,
    },
    /// It is of another version.
    Version {
        /// The version that it names.
        version: u32,
    },
    /// A part has a length that no such part has.
    Length {
        /// The part.
        part: Part,
        /// The length that is told.
        length: u32,
    },
    /// It ends too early.
    Short {
        /// How many bytes it should have.
        needed: usize,
        /// How many it has.
        found: usize,
    },
    /// It goes on after its end.
    Long {
        /// How many bytes it should have.
        needed: usize,
        /// How many it has.
        found: usize,
    },
    /// Its bytes are not those that were written.
    Checksum {
        /// The CRC that the file tells.
        told: u32,
        /// The CRC of its bytes.
        found: u32,
    },
}

impl<'a> Snapshot<'a> {
    /// The snapshot that a file's bytes hold, or what is wrong with them.
    ///
    /// ```
    /// use gemsilver::{Snapshot, SnapshotError};
    ///
    /// let error = Snapshot::read(b"GEMSTONE").expect_err("another file");
    /// assert_eq!(error, SnapshotError::Magic { at: 4 });
    /// assert_eq!(error.to_string(), "no snapshot: byte 4 is not that of one");
    /// ```
    pub fn read(file: &'a [u8]) -> Result<Self, SnapshotError> {
        let differs = file
            .iter()
            .zip(MAGIC)
            .position(|(byte, magic)| byte != magic);
        if let Some(at) = differs {
            return Err(SnapshotError::Magic { at });
        }
        has_length(file, HEADER + CRC)?;
        let version = word(file, 12);
        if version != VERSION {
            return Err(SnapshotError::Version { version });
        }
        let [image, card, register] = [Part::Image, Part::Card, Part::Register]
            .map(|part| part.length(word(file, 16 + 4 * part as usize)));
        let (image, card, register) = (image?, card?, register?);
        let end = HEADER + image + card + register;
        has_length(file, end + CRC)?;
        if file.len() > end + CRC {
            return Err(SnapshotError::Long {
                needed: end + CRC,
                found: file.len(),
            });
        }
        let (told, found) = (word(file, end), !crc(u32::MAX, &file[..end]));
        if told != found {
            return Err(SnapshotError::Checksum { told, found });
        }
        let (image, rest) = file[HEADER..end].split_at(image);
        let (card, register) = rest.split_at(card);
        Ok(Snapshot {
            image,
            card,
            register,
        })
    }

    /// Hands the file's bytes on, a piece after the other, until one cannot be taken. [`Probe::snapshot`] has an example.
    pub fn write<E>(&self, mut put: impl FnMut(&[u8]) -> Result<(), E>) -> Result<(), E> {
        let parts = [self.image, self.card, self.register];
        let mut header = [0; HEADER];
        header[..12].copy_from_slice(MAGIC);
        header[12..16].copy_from_slice(&VERSION.to_le_bytes());
        for (place, part) in header[16..].chunks_exact_mut(4).zip(parts) {
            place.copy_from_slice(&(part.len() as u32).to_le_bytes());
        }
        let mut sum = u32::MAX;
        for piece in [&header[..], self.image, self.card, self.register] {
            sum = crc(sum, piece);
            put(piece)?;
        }
        put(&(!sum).to_le_bytes())
    }

    /// The probe, lent for reading.
    pub fn probe(&self) -> Probe<&'a [u8]> {
        Probe::resume(self.image, self.card, self.register)
    }
}

/// Whether a file has at least so many bytes.
fn has_length(file: &[u8], needed: usize) -> Result<(), SnapshotError> {
    let found = file.len();
    if found < needed {
        return Err(SnapshotError::Short { needed, found });
    }
    Ok(())
}

/// The little-endian word at an offset.
fn word(bytes: &[u8], offset: usize) -> u32 {
    let mut word = [0; 4];
    word.copy_from_slice(&bytes[offset..offset + 4]);
    u32::from_le_bytes(word)
}

/// A CRC-32 carried on over more bytes; it begins with all ones and is inverted at the end.
fn crc(begun: u32, bytes: &[u8]) -> u32 {
    const TABLE: [u32; 256] = table();
    bytes.iter().fold(begun, |sum, &byte| {
        sum >> 8 ^ TABLE[usize::from(sum as u8 ^ byte)]
    })
}

/// What each byte makes of a CRC of 0.
const fn table() -> [u32; 256] {
    let mut table = [0; 256];
    let mut byte = 0;
    while byte < 256 {
        let mut sum = byte as u32;
        let mut bit = 0;
        while bit < 8 {
            sum = if sum % 2 == 1 {
                sum >> 1 ^ 0xedb8_8320
            } else {
                sum >> 1
            };
            bit += 1;
        }
        table[byte] = sum;
        byte += 1;
    }
    table
}

impl Part {
    /// A length that the part can have.
    fn length(self, length: u32) -> Result<usize, SnapshotError> {
        let bytes = length as usize;
        let fits = match self {
            Part::Image => bytes == IMAGE,
            Part::Card => bytes.is_multiple_of(BLOCK) && (4..=4_096).contains(&(bytes / BLOCK)),
            Part::Register => bytes.is_multiple_of(ENTRY) && (1..=1_024).contains(&(bytes / ENTRY)),
        };
        if fits {
            Ok(bytes)
        } else {
            Err(SnapshotError::Length { part: self, length })
        }
    }

    /// The part in words, and what lengths it has.
    fn words(self) -> (&'static str, &'static str) {
        match self {
            Part::Image => ("image", "2,864 bytes"),
            Part::Card => ("card", "4 to 4,096 blocks of 4,096 bytes"),
            Part::Register => ("register", "1 to 1,024 entries of 65 bytes"),
        }
    }
}

impl fmt::Display for SnapshotError {
    fn fmt(&self, out: &mut fmt::Formatter<'_>) -> fmt::Result {
        match *self {
            SnapshotError::Magic { at } => {
                write!(out, "no snapshot: byte {at} is not that of one")
            }
            SnapshotError::Version { version } => {
                write!(
                    out,
                    "a snapshot of version {version}, and this program reads version {VERSION}"
                )?;
                match version {
                    1 => {
                        out.write_str(": in version 1 partitions tell no lowest and highest window")
                    }
                    _ => Ok(()),
                }
            }
            SnapshotError::Length { part, length } => {
                let (part, lengths) = part.words();
                write!(
                    out,
                    "the {part}'s length is told as {length}; a {part} has {lengths}"
                )
            }
            SnapshotError::Short { needed, found } => {
                write!(out, "cut off: it has {found} bytes of {needed}")
            }
            SnapshotError::Long { needed, found } => {
                write!(out, "too long: it has {found} bytes, and ends at {needed}")
            }
            SnapshotError::Checksum { told, found } => write!(
                out,
                "damaged: its CRC should be {told:08x} and is {found:08x}"
            ),
        }
    }
}

impl core::error::Error for SnapshotError {}
