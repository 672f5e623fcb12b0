//! Items, and the counts of a lossy decoding.

use std::ops::Range;

use crate::{Fault, Refusal};

/// A stretch of a text: one character, or one mark over code units that are
/// none.
///
/// The items of a text follow each other without a gap. One that is damaged
/// takes nothing from its neighbours.
#[derive(Clone, Copy, Debug, PartialEq, Eq, Hash)]
pub struct Item {
    /// Where the item starts, in code units.
    pub offset: usize,
    /// How many code units it has, at least one.
    pub length: usize,
    /// What it is.
    pub content: Content,
}

impl Item {
    /// The places of the item's code units, to slice the text with.
    ///
    /// ```
    /// use jiskromet::{fss_utf, Content, Fault};
    ///
    /// let text = b"5 \xE2\x84ALARM"; // a degree sign in one character, cut short
    /// let mark = fss_utf::item_at(text, 2)?.expect("the text goes on there");
    /// assert_eq!(mark.content, Content::Mark(Fault::MissingTrailing));
    /// assert_eq!(&text[mark.range()], b"\xE2\x84");
    /// # Ok::<(), jiskromet::Refusal>(())
    /// ```
    #[must_use]
    pub const fn range(&self) -> Range<usize> {
        self.offset..self.offset + self.length
    }

    /// The character's value.
    ///
    /// # Errors
    ///
    /// A mark gives its fault and its place, as a strict conversion would.
    ///
    /// ```
    /// use jiskromet::{utf16, Refusal};
    ///
    /// fn values(text: &[u16]) -> Result<Vec<u32>, Refusal> {
    ///     utf16::items(text)?.map(|item| item.value()).collect()
    /// }
    ///
    /// assert_eq!(values(&[0x34, 0xD83D, 0xDD25])?, [0x34, 0x1F525]);
    /// assert_eq!(values(&[0x34, 0xD83D]).unwrap_err().offset, 1);
    /// # Ok::<(), Refusal>(())
    /// ```
    pub const fn value(&self) -> Result<u32, Refusal> {
        match self.content {
            Content::Character(value) => Ok(value),
            Content::Mark(fault) => Err(Refusal {
                fault,
                offset: self.offset,
            }),
        }
    }
}

/// What an item is.
#[derive(Clone, Copy, Debug, PartialEq, Eq, Hash)]
pub enum Content {
    /// A character, with its value from 0 to 7FFFFFFF, but not from D800 to
    /// DFFF. UCS-4, FSS-UTF and UTF-EBCDIC carry values above 10FFFF, which a
    /// `char` does not; `char::from_u32` tells them apart. FFFE and FFFF are
    /// characters here, and refused by a strict conversion.
    Character(u32),
    /// Code units that are no character, with the fault that says why.
    Mark(Fault),
}

/// What a lossy decoding found.
#[derive(Clone, Copy, Debug, PartialEq, Eq, Hash)]
pub struct Counts {
    /// How many items the text has: so many cells of both buffers are written.
    pub items: usize,
    /// How many of them are marks. A text without one can be converted, unless
    /// it has FFFE or FFFF or, to UTF-16, a value above 10FFFF.
    pub marks: usize,
}
