//! Texts in UTF-EBCDIC of the draft Unicode Technical Report #16 (January 1999),
//! as EBCDIC hosts take them: bytes, one to seven for each value from 0 to
//! 7FFFFFFF but D800 to DFFF.
//!
//! Letters, digits and controls are single bytes at their EBCDIC places: A is C1,
//! 0 is F0.
//!
//! The later report places 97 of the 256 bytes otherwise: line feed and next line,
//! and 95 of the 96 leads and trailing bytes. A host that follows it misreads
//! every letter outside ASCII, and line ends. One text tells:
//!
//! ```
//! let host = jiskromet::fss_utf::to_utf_ebcdic_vec("°\n".as_bytes())?;
//! assert_eq!(host, [0x47, 0xBF, 0x25]); // by the later report: 80 57 15
//! # Ok::<(), jiskromet::Refusal>(())
//! ```
//!
//! ```
//! use jiskromet::{ucs4, utf_ebcdic, Fault, Refusal};
//!
//! // There and back.
//! let host = [0xF4, 0x40, 0x47, 0xBF, 0xC3]; // 4 °C
//! let values = utf_ebcdic::to_ucs4_vec(&host)?;
//! assert_eq!(values, [0x34, 0x20, 0xB0, 0x43]);
//! assert_eq!(ucs4::to_utf_ebcdic_vec(&values)?, host);
//!
//! // BF lost: the lead 47 stands directly before the C.
//! assert_eq!(
//!     utf_ebcdic::to_ucs4_vec(&[0xF4, 0x40, 0x47, 0xC3]),
//!     Err(Refusal { fault: Fault::MissingTrailing, offset: 2 })
//! );
//! # Ok::<(), Refusal>(())
//! ```

use std::iter::FusedIterator;

use crate::{sys, Counts, Item, Refusal, MAX_UNITS, NOT_REFUSED};

conversions! {
    from "UTF-EBCDIC": utf_ebcdic, [u8], "[0xF4, 0x40, 0x47, 0xBF, 0xC3]";

    to "FSS-UTF": fss_utf, [u8], "[0x34, 0x20, 0xC2, 0xB0, 0x43]";
    most |n| 2 * n;
    to_fss_utf = jk_utf_ebcdic_to_fss_utf;
    to_fss_utf_length = jk_utf_ebcdic_to_fss_utf_length;
    to_fss_utf_vec, to_fss_utf_max_length, to_utf_ebcdic_vec;

    to "UTF-16": utf16, [u16], "[0x34, 0x20, 0xB0, 0x43]";
    most |n| n;
    to_utf16 = jk_utf_ebcdic_to_utf16;
    to_utf16_length = jk_utf_ebcdic_to_utf16_length;
    to_utf16_vec, to_utf16_max_length, to_utf_ebcdic_vec;

    to "UCS-4": ucs4, [u32], "[0x34, 0x20, 0xB0, 0x43]";
    most |n| n;
    to_ucs4 = jk_utf_ebcdic_to_ucs4;
    to_ucs4_length = jk_utf_ebcdic_to_ucs4_length;
    to_ucs4_vec, to_ucs4_max_length, to_utf_ebcdic_vec;
}

readers! {
    "UTF-EBCDIC", [u8], longest 7;

    /// ```
    /// use jiskromet::{utf_ebcdic, Counts, MARK_VALUE};
    ///
    /// let text = [0xF4, 0x40, 0x47, 0xC3]; // 4 °C without the last byte of °
    /// let (mut values, mut starts) = ([0; 4], [0; 4]);
    /// let counts = utf_ebcdic::decode_lossy(&text, &mut values, &mut starts)?;
    /// assert_eq!(counts, Counts { items: 4, marks: 1 });
    /// assert_eq!(values, [0x34, 0x20, MARK_VALUE, 0x43]);
    /// assert_eq!(starts, [0, 1, 2, 3]);
    /// # Ok::<(), jiskromet::Refusal>(())
    /// ```
    decode_lossy = jk_utf_ebcdic_decode_lossy;

    /// ```
    /// use jiskromet::{utf_ebcdic, Content, Item};
    ///
    /// let text = [0xF4, 0x47, 0xBF];
    /// let degree = Item { offset: 1, length: 2, content: Content::Character(0xB0) };
    /// assert_eq!(utf_ebcdic::item_at(&text, 1), Ok(Some(degree)));
    /// assert_eq!(utf_ebcdic::item_at(&text, 3), Ok(None));
    /// ```
    item_at = jk_utf_ebcdic_item_at;

    /// ```
    /// use jiskromet::{utf_ebcdic, Content, Fault, Item};
    ///
    /// let text = [0xF4, 0x8B, 0x90, 0xC3]; // the last byte of a euro sign is lost
    /// let mark = Item { offset: 1, length: 2, content: Content::Mark(Fault::MissingTrailing) };
    /// assert_eq!(utf_ebcdic::item_covering(&text, 2), Ok(mark));
    /// ```
    item_covering = jk_utf_ebcdic_item_covering;

    /// ```
    /// use jiskromet::{utf_ebcdic, Content};
    ///
    /// let text = [0xF4, 0x40, 0x47, 0xBF, 0xC3]; // 4 °C
    /// let mut items = utf_ebcdic::items(&text)?;
    /// assert_eq!(items.next_back().map(|item| item.content), Some(Content::Character(0x43)));
    /// assert_eq!(items.next_back().map(|item| item.range()), Some(2..4));
    /// assert_eq!(items.next().map(|item| item.content), Some(Content::Character(0x34)));
    /// assert_eq!(items.count(), 1);
    /// # Ok::<(), jiskromet::Refusal>(())
    /// ```
    items;
}
