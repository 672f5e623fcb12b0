//! Texts in UTF-16, as display panels hold them: `u16` units, one or two for
//! each value from 0 to 10FFFF but D800 to DFFF.
//!
//! Units are numbers: a panel's bytes have to be put together in its byte order
//! first. FEFF is a character like another; FFFE, which it becomes in the wrong
//! order, is refused by a strict conversion.
//!
//! ```
//! use jiskromet::{fss_utf, utf16, Fault, Refusal};
//!
//! // There and back.
//! let panel: Vec<u16> = "Fühler 3 offen, +4,5 °C".encode_utf16().collect();
//! let controller = utf16::to_fss_utf_vec(&panel)?;
//! assert_eq!(fss_utf::to_utf16_vec(&controller)?, panel);
//!
//! // A low unit without its high one.
//! assert_eq!(
//!     utf16::to_fss_utf_vec(&[0x34, 0xDD25]),
//!     Err(Refusal { fault: Fault::StrayTrailing, offset: 1 })
//! );
//!
//! // FEFF and a 4, with their bytes in the wrong order.
//! assert_eq!(
//!     utf16::to_fss_utf_vec(&[0xFFFE, 0x3400]),
//!     Err(Refusal { fault: Fault::NonCharacter, offset: 0 })
//! );
//! # Ok::<(), Refusal>(())
//! ```

use std::iter::FusedIterator;

use crate::{sys, Counts, Item, Refusal, MAX_UNITS, NOT_REFUSED};

conversions! {
    from "UTF-16": utf16, [u16], "[0x34, 0x20, 0xB0, 0x43]";

    to "FSS-UTF": fss_utf, [u8], "[0x34, 0x20, 0xC2, 0xB0, 0x43]";
    most |n| 3 * n;
    to_fss_utf = jk_utf16_to_fss_utf;
    to_fss_utf_length = jk_utf16_to_fss_utf_length;
    to_fss_utf_vec, to_fss_utf_max_length, to_utf16_vec;

    to "UTF-EBCDIC": utf_ebcdic, [u8], "[0xF4, 0x40, 0x47, 0xBF, 0xC3]";
    most |n| 4 * n;
    to_utf_ebcdic = jk_utf16_to_utf_ebcdic;
    to_utf_ebcdic_length = jk_utf16_to_utf_ebcdic_length;
    to_utf_ebcdic_vec, to_utf_ebcdic_max_length, to_utf16_vec;

    to "UCS-4": ucs4, [u32], "[0x34, 0x20, 0xB0, 0x43]";
    most |n| n;
    to_ucs4 = jk_utf16_to_ucs4;
    to_ucs4_length = jk_utf16_to_ucs4_length;
    to_ucs4_vec, to_ucs4_max_length, to_utf16_vec;
}

readers! {
    "UTF-16", [u16], longest 2;

    /// ```
    /// use jiskromet::{utf16, Counts, MARK_VALUE};
    ///
    /// let text = [0x34, 0xD83D, 0xB0, 0xD83D, 0xDD25]; // a high unit that lost its low one
    /// let (mut values, mut starts) = ([0; 5], [0; 5]);
    /// let counts = utf16::decode_lossy(&text, &mut values, &mut starts)?;
    /// assert_eq!(counts, Counts { items: 4, marks: 1 });
    /// assert_eq!(values[..4], [0x34, MARK_VALUE, 0xB0, 0x1F525]);
    /// assert_eq!(starts[..4], [0, 1, 2, 3]);
    /// # Ok::<(), jiskromet::Refusal>(())
    /// ```
    decode_lossy = jk_utf16_decode_lossy;

    /// ```
    /// use jiskromet::{utf16, Content, Fault, Item};
    ///
    /// let text = [0x34, 0xD83D, 0xDD25];
    /// let pair = Item { offset: 1, length: 2, content: Content::Character(0x1F525) };
    /// assert_eq!(utf16::item_at(&text, 1), Ok(Some(pair)));
    /// let low = Item { offset: 2, length: 1, content: Content::Mark(Fault::StrayTrailing) };
    /// assert_eq!(utf16::item_at(&text, 2), Ok(Some(low))); // as though the text began there
    /// ```
    item_at = jk_utf16_item_at;

    /// ```
    /// use jiskromet::{utf16, Content, Item};
    ///
    /// let text = [0x34, 0xD83D, 0xDD25];
    /// let pair = Item { offset: 1, length: 2, content: Content::Character(0x1F525) };
    /// assert_eq!(utf16::item_covering(&text, 1), Ok(pair));
    /// assert_eq!(utf16::item_covering(&text, 2), Ok(pair));
    /// ```
    item_covering = jk_utf16_item_covering;

    /// ```
    /// use jiskromet::utf16;
    ///
    /// let text = [0x34, 0xD83D, 0xDD25, 0x43];
    /// let offsets: Vec<_> = utf16::items(&text)?.map(|item| item.offset).collect();
    /// assert_eq!(offsets, [0, 1, 3]);
    /// # Ok::<(), jiskromet::Refusal>(())
    /// ```
    items;
}
