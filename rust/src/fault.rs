//! Faults and refusals.

use std::error::Error;
use std::fmt;

/// Why a text, or a stretch of it, was not taken.
///
/// `Display` says it in words, without the number:
///
/// ```
/// use jiskromet::Fault;
///
/// assert_eq!(Fault::Overlong.number(), 5);
/// assert_eq!(Fault::Overlong.to_string(), "a sequence is longer than its value needs");
/// ```
///
/// Later deliveries may add faults. The number 8 is never used again: it was a
/// value above 7FFFFFFF, which no text gives.
#[derive(Clone, Copy, Debug, PartialEq, Eq, Hash)]
#[non_exhaustive]
pub enum Fault {
    /// Fault 1: the text has more than 65,536 code units.
    SourceTooLong = 1,
    /// Fault 2: a lead has too few trailing units, the text's end included.
    MissingTrailing = 2,
    /// Fault 3: a trailing unit that no lead takes.
    StrayTrailing = 3,
    /// Fault 4: FE or FF in FSS-UTF, or a UCS-4 unit of 80000000 or more.
    InvalidUnit = 4,
    /// Fault 5: the sequence is longer than its value needs.
    Overlong = 5,
    /// Fault 6: the target cannot hold the value. Only a conversion to UTF-16
    /// gives it, above 10FFFF.
    Unrepresentable = 6,
    /// Fault 7: a result buffer is too short for the whole result.
    BufferTooShort = 7,
    /// Fault 9: the asked offset lies beyond the text.
    OffsetOutOfRange = 9,
    /// Fault 10: a surrogate value, D800 to DFFF, in UCS-4, FSS-UTF or
    /// UTF-EBCDIC.
    Surrogate = 10,
    /// Fault 12: FFFE or FFFF in a strict conversion. It refuses them since a
    /// client's host stops at them.
    ///
    /// Only a conversion and its length give it, and for these two values
    /// alone: what else Unicode calls a noncharacter, as FDD0 or 1FFFE, is
    /// converted. To every other call FFFE and FFFF are characters.
    ///
    /// ```
    /// use jiskromet::{fss_utf, Content, Fault, Item, Refusal};
    ///
    /// let text = b"leer \xEF\xBF\xBF"; // ends with FFFF
    /// assert_eq!(
    ///     fss_utf::to_utf_ebcdic_vec(text),
    ///     Err(Refusal { fault: Fault::NonCharacter, offset: 5 })
    /// );
    /// let shown = Item { offset: 5, length: 3, content: Content::Character(0xFFFF) };
    /// assert_eq!(fss_utf::item_at(text, 5), Ok(Some(shown)));
    /// ```
    NonCharacter = 12,
}

impl Fault {
    /// The fault's number, as the C header and the listing program have it.
    #[must_use]
    pub const fn number(self) -> u32 {
        self as u32
    }

    /// The fault that has a number.
    ///
    /// ```
    /// use jiskromet::Fault;
    ///
    /// assert_eq!(Fault::from_number(3), Some(Fault::StrayTrailing));
    /// assert_eq!(Fault::from_number(0), None);
    /// assert_eq!(Fault::from_number(8), None);
    /// ```
    #[must_use]
    pub const fn from_number(number: u32) -> Option<Fault> {
        Some(match number {
            1 => Fault::SourceTooLong,
            2 => Fault::MissingTrailing,
            3 => Fault::StrayTrailing,
            4 => Fault::InvalidUnit,
            5 => Fault::Overlong,
            6 => Fault::Unrepresentable,
            7 => Fault::BufferTooShort,
            9 => Fault::OffsetOutOfRange,
            10 => Fault::Surrogate,
            12 => Fault::NonCharacter,
            _ => return None,
        })
    }
}

impl fmt::Display for Fault {
    fn fmt(&self, f: &mut fmt::Formatter<'_>) -> fmt::Result {
        f.pad(match self {
            Fault::SourceTooLong => "the text has more than 65,536 code units",
            Fault::MissingTrailing => "a lead has too few trailing units",
            Fault::StrayTrailing => "a trailing unit stands where no lead takes it",
            Fault::InvalidUnit => "a code unit has no meaning in its form",
            Fault::Overlong => "a sequence is longer than its value needs",
            Fault::Unrepresentable => "the target form cannot hold the value",
            Fault::BufferTooShort => "a result buffer is too short for the whole result",
            Fault::OffsetOutOfRange => "the asked offset lies beyond the text",
            Fault::Surrogate => "a surrogate value, D800 to DFFF, is no character",
            Fault::NonCharacter => "FFFE and FFFF are not converted",
        })
    }
}

/// A call's refusal: the fault, and the place that it concerns.
///
/// A call that refuses has changed nothing in the buffers it was lent.
///
/// ```
/// use jiskromet::{ucs4, Fault, Refusal};
///
/// let mut panel = [0xFFFF; 8];
/// let refusal = ucs4::to_utf16(&[0x34, 0x20_0000, 0x43], &mut panel).unwrap_err();
/// assert_eq!(refusal, Refusal { fault: Fault::Unrepresentable, offset: 1 });
/// assert_eq!(refusal.to_string(), "fault 6 at offset 1: the target form cannot hold the value");
/// assert_eq!(panel, [0xFFFF; 8]);
///
/// // A refusal that concerns no item prints no place.
/// let refusal = ucs4::to_utf16(&[0x34; 9], &mut panel).unwrap_err();
/// assert_eq!(refusal.to_string(), "fault 7: a result buffer is too short for the whole result");
/// ```
#[derive(Clone, Copy, Debug, PartialEq, Eq, Hash)]
pub struct Refusal {
    /// Why the call refused.
    pub fault: Fault,
    /// Where the item at fault starts, in code units of the text; the asked
    /// offset for [`Fault::OffsetOutOfRange`]; 0 for the faults that concern no
    /// item, [`Fault::SourceTooLong`] and [`Fault::BufferTooShort`].
    pub offset: usize,
}

impl fmt::Display for Refusal {
    fn fmt(&self, f: &mut fmt::Formatter<'_>) -> fmt::Result {
        let Refusal { fault, offset } = self;
        match fault {
            Fault::SourceTooLong | Fault::BufferTooShort => {
                write!(f, "fault {}: {fault}", fault.number())
            }
            _ => write!(f, "fault {} at offset {offset}: {fault}", fault.number()),
        }
    }
}

impl Error for Refusal {}
