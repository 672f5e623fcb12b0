//! Texts in UCS-4, as the gateway works in them: `u32` units, one for each value
//! from 0 to 7FFFFFFF but D800 to DFFF.
//!
//! ```
//! use jiskromet::{ucs4, utf16, Fault, Refusal};
//!
//! // There and back.
//! let values: Vec<u32> = "Fühler 3 offen, +4,5 °C".chars().map(u32::from).collect();
//! let panel = ucs4::to_utf16_vec(&values)?;
//! assert_eq!(utf16::to_ucs4_vec(&panel)?, values);
//!
//! // UTF-16 ends at 10FFFF.
//! assert_eq!(
//!     ucs4::to_utf16_vec(&[0x10_FFFF, 0x11_0000]),
//!     Err(Refusal { fault: Fault::Unrepresentable, offset: 1 })
//! );
//!
//! // A unit of UTF-16 that was taken for a value.
//! assert_eq!(
//!     ucs4::to_fss_utf_vec(&[0x34, 0xD83D, 0xDD25]),
//!     Err(Refusal { fault: Fault::Surrogate, offset: 1 })
//! );
//! # Ok::<(), Refusal>(())
//! ```

use std::iter::FusedIterator;

use crate::{sys, Counts, Item, Refusal, MAX_UNITS, NOT_REFUSED};

conversions! {
    from "UCS-4": ucs4, [u32], "[0x34, 0x20, 0xB0, 0x43]";

    to "FSS-UTF": fss_utf, [u8], "[0x34, 0x20, 0xC2, 0xB0, 0x43]";
    most |n| 6 * n;
    to_fss_utf = jk_ucs4_to_fss_utf;
    to_fss_utf_length = jk_ucs4_to_fss_utf_length;
    to_fss_utf_vec, to_fss_utf_max_length, to_ucs4_vec;

    to "UTF-EBCDIC": utf_ebcdic, [u8], "[0xF4, 0x40, 0x47, 0xBF, 0xC3]";
    most |n| 7 * n;
    to_utf_ebcdic = jk_ucs4_to_utf_ebcdic;
    to_utf_ebcdic_length = jk_ucs4_to_utf_ebcdic_length;
    to_utf_ebcdic_vec, to_utf_ebcdic_max_length, to_ucs4_vec;

    to "UTF-16": utf16, [u16], "[0x34, 0x20, 0xB0, 0x43]";
    most |n| 2 * n;
    to_utf16 = jk_ucs4_to_utf16;
    to_utf16_length = jk_ucs4_to_utf16_length;
    to_utf16_vec, to_utf16_max_length, to_ucs4_vec;
}

readers! {
    "UCS-4", [u32], longest 1;

    /// ```
    /// use jiskromet::{ucs4, Counts, MARK_VALUE};
    ///
    /// let text = [0x34, 0x8000_0000, 0x43]; // no value of UCS-4 has the highest bit
    /// let (mut values, mut starts) = ([0; 3], [0; 3]);
    /// let counts = ucs4::decode_lossy(&text, &mut values, &mut starts)?;
    /// assert_eq!(counts, Counts { items: 3, marks: 1 });
    /// assert_eq!(values, [0x34, MARK_VALUE, 0x43]);
    /// assert_eq!(starts, [0, 1, 2]);
    /// # Ok::<(), jiskromet::Refusal>(())
    /// ```
    decode_lossy = jk_ucs4_decode_lossy;

    /// ```
    /// use jiskromet::{ucs4, Content, Fault, Item};
    ///
    /// let text = [0x7FFF_FFFF, 0x8000_0000];
    /// let last = Item { offset: 0, length: 1, content: Content::Character(0x7FFF_FFFF) };
    /// assert_eq!(ucs4::item_at(&text, 0), Ok(Some(last)));
    /// let none = Item { offset: 1, length: 1, content: Content::Mark(Fault::InvalidUnit) };
    /// assert_eq!(ucs4::item_at(&text, 1), Ok(Some(none)));
    /// ```
    item_at = jk_ucs4_item_at;

    /// A UCS-4 unit is always an item of its own.
    ///
    /// ```
    /// use jiskromet::{ucs4, Content, Fault, Item, Refusal};
    ///
    /// let text = [0x34, 0xB0];
    /// let degree = Item { offset: 1, length: 1, content: Content::Character(0xB0) };
    /// assert_eq!(ucs4::item_covering(&text, 1), Ok(degree));
    /// assert_eq!(
    ///     ucs4::item_covering(&text, 2),
    ///     Err(Refusal { fault: Fault::OffsetOutOfRange, offset: 2 })
    /// );
    /// ```
    item_covering = jk_ucs4_item_covering;

    /// ```
    /// use jiskromet::ucs4;
    ///
    /// let text = [0x34, 0x8000_0000, 0x43];
    /// let kept: Vec<u32> = ucs4::items(&text)?.filter_map(|item| item.value().ok()).collect();
    /// assert_eq!(kept, [0x34, 0x43]);
    /// # Ok::<(), jiskromet::Refusal>(())
    /// ```
    items;
}
