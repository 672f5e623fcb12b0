//! Proved conversion between FSS-UTF (rack controllers), UTF-EBCDIC (EBCDIC
//! hosts), UTF-16 (display panels) and UCS-4 (the gateway).
//!
//! FSS-UTF is X/Open's of 1993, with values up to 7FFFFFFF; today's UTF-8 can be
//! lent as it. UTF-EBCDIC is the draft of Unicode Technical Report #16 of January
//! 1999, and **not** the later report: see [`utf_ebcdic`] before you send a host
//! its first letter outside ASCII.
//!
//! Safe calls of `libjiskromet.a`, in a module for each form that a text can
//! come in: [`fss_utf`], [`utf_ebcdic`], [`utf16`], [`ucs4`].
//!
//! ```
//! use jiskromet::{fss_utf, Content};
//!
//! let alarm = b"T=4 \xC2C"; // the second byte of the degree sign is lost
//! match fss_utf::to_utf_ebcdic_vec(alarm) {
//!     Ok(host) => println!("{host:02X?}"),
//!     Err(refusal) => println!("{refusal}"), // fault 2 at offset 4: a lead has too few trailing units
//! }
//! for item in fss_utf::items(alarm)? {
//!     match item.content {
//!         Content::Character(value) => println!("{} U+{value:08X}", item.offset),
//!         Content::Mark(fault) => println!("{} {:02X?}: {fault}", item.offset, &alarm[item.range()]),
//!     }
//! }
//! # assert_eq!(
//! #     fss_utf::to_utf_ebcdic_vec(alarm).unwrap_err().to_string(),
//! #     "fault 2 at offset 4: a lead has too few trailing units"
//! # );
//! # Ok::<(), jiskromet::Refusal>(())
//! ```
//!
//! # What each module has
//!
//! | call | what it does |
//! |---|---|
//! | `to_G` | strict conversion to the form G in a lent buffer |
//! | `to_G_length`, `to_G_max_length` | the room that a text takes, and the most that one of n units can take |
//! | `to_G_vec` | strict conversion in a vector of the right length |
//! | `decode_lossy` | the values and starts of all items of a text, damaged or not, in two lent buffers |
//! | `items` | an iterator over the items, from either end |
//! | `item_at` | the item at an offset, read as though the text began there |
//! | `item_covering` | the item that covers an offset, in the reading of the whole text |
//!
//! Only `to_G_vec` allocates.
//!
//! # What it promises
//!
//! For every text of any content and length:
//!
//! - A call ends with its result or with a [`Refusal`]: a [`Fault`] and its
//!   place. A refusal has changed nothing in a lent buffer, and no call relies
//!   on you having tested the text.
//! - A strict conversion takes a text without a fault, whole, and no other.
//!   What comes back from the other form is the text that you sent. FFFE and
//!   FFFF are a fault to it, [`Fault::NonCharacter`], and characters to every
//!   other call.
//! - A damaged stretch costs the characters it hit, and no neighbour.
//!
//! These are proved, by machine and for all inputs, of the code in the archive:
//! the repository's `docs/STATEMENTS.md` says which statement is which promise.
//! This crate adds slices, types and the iterators, and tests nothing again. It
//! panics only where the archive is of another delivery than the crate.
//!
//! # Linking it
//!
//! Build the archive with `make library` in the repository, and depend on this
//! folder:
//!
//! ```toml
//! [dependencies]
//! jiskromet = { path = "jiskromet/rust" }
//! ```
//!
//! The archive is taken from the folder that the environment variable
//! `JISKROMET_LIB_DIR` names; without it from the repository's
//! `target/staticlib`; failing that, from where `pkg-config` knows `jiskromet`.
//! A relative folder in `JISKROMET_LIB_DIR` counts from this package's folder,
//! where cargo runs its build, and not from where cargo is called. Nothing else
//! is needed to link it.
//!
//! # Limits
//!
//! - A text has at most [`MAX_UNITS`] (65,536) code units; a longer one is
//!   refused. A result may be longer, and can then not be read again.
//! - Offsets and lengths are in code units: bytes in FSS-UTF and UTF-EBCDIC,
//!   `u16` in UTF-16, `u32` in UCS-4. Byte order plays no part.
//! - Every `str` is good FSS-UTF, but not every FSS-UTF text a `str`: it has the
//!   values from 110000 to 7FFFFFFF besides. A `str` with FFFE or FFFF is read,
//!   but not converted.
//! - The archive is for x86-64 Linux.

#![deny(missing_docs)]
#![warn(unsafe_op_in_unsafe_fn)]

#[macro_use]
mod macros;
mod fault;
mod item;
mod sys;

pub mod fss_utf;
pub mod ucs4;
pub mod utf16;
pub mod utf_ebcdic;

pub use fault::{Fault, Refusal};
pub use item::{Content, Counts, Item};

/// How many code units a text may have.
pub const MAX_UNITS: usize = 65_536;

/// The value that stands for a mark in a lossy decoding.
pub const MARK_VALUE: u32 = 0xFFFF_FFFF;

/// Why an iterator's step cannot be refused.
const NOT_REFUSED: &str = "a text that is not too long is read at every offset within it";
