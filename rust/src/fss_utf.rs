//! Texts in FSS-UTF of X/Open (1993), as rack controllers send them: bytes, one to
//! six for each value from 0 to 7FFFFFFF but D800 to DFFF.
//!
//! Today's UTF-8 is a part of it, so that every `str` is good FSS-UTF, with the
//! same characters. FSS-UTF has more: all above 10FFFF. A text that has FFFE or
//! FFFF, a `str` too, is read but not converted:
//! [`Fault::NonCharacter`](crate::Fault::NonCharacter).
//!
//! ```
//! use jiskromet::{fss_utf, utf_ebcdic, Fault, Refusal};
//!
//! // There and back.
//! let alarm = "Fühler 3 offen, +4,5 °C";
//! let host = fss_utf::to_utf_ebcdic_vec(alarm.as_bytes())?;
//! assert_eq!(utf_ebcdic::to_fss_utf_vec(&host)?, alarm.as_bytes());
//!
//! // Three bytes lost: the lead C2 stands directly before the next alarm.
//! let struck = b"+4,5 \xC2ALARM 0418";
//! let mut host = [0; 64];
//! assert_eq!(
//!     fss_utf::to_utf_ebcdic(struck, &mut host),
//!     Err(Refusal { fault: Fault::MissingTrailing, offset: 5 })
//! );
//! assert_eq!(host, [0; 64]);
//! # Ok::<(), Refusal>(())
//! ```

use std::iter::FusedIterator;

use crate::{sys, Counts, Item, Refusal, MAX_UNITS, NOT_REFUSED};

conversions! {
    from "FSS-UTF": fss_utf, [u8], "[0x34, 0x20, 0xC2, 0xB0, 0x43]";

    to "UTF-EBCDIC": utf_ebcdic, [u8], "[0xF4, 0x40, 0x47, 0xBF, 0xC3]";
    most |n| 3 * n / 2;
    to_utf_ebcdic = jk_fss_utf_to_utf_ebcdic;
    to_utf_ebcdic_length = jk_fss_utf_to_utf_ebcdic_length;
    to_utf_ebcdic_vec, to_utf_ebcdic_max_length, to_fss_utf_vec;

    to "UTF-16": utf16, [u16], "[0x34, 0x20, 0xB0, 0x43]";
    most |n| n;
    to_utf16 = jk_fss_utf_to_utf16;
    to_utf16_length = jk_fss_utf_to_utf16_length;
    to_utf16_vec, to_utf16_max_length, to_fss_utf_vec;

    to "UCS-4": ucs4, [u32], "[0x34, 0x20, 0xB0, 0x43]";
    most |n| n;
    to_ucs4 = jk_fss_utf_to_ucs4;
    to_ucs4_length = jk_fss_utf_to_ucs4_length;
    to_ucs4_vec, to_ucs4_max_length, to_fss_utf_vec;
}

readers! {
    "FSS-UTF", [u8], longest 6;

    /// An alarm lost three bytes, and the next one stands directly behind the
    /// lead that is left. The mark covers that lead alone; the next alarm comes
    /// out whole.
    ///
    /// ```
    /// use jiskromet::{fss_utf, Counts, MARK_VALUE};
    ///
    /// let alarms = b"+4,5 \xC2ALARM 0418";
    /// let (mut values, mut starts) = ([0; 32], [0; 32]);
    /// let counts = fss_utf::decode_lossy(alarms, &mut values, &mut starts)?;
    /// assert_eq!(counts, Counts { items: 16, marks: 1 });
    ///
    /// assert_eq!((values[5], starts[5]), (MARK_VALUE, 5));
    /// let next: String = values[6..16].iter().filter_map(|&value| char::from_u32(value)).collect();
    /// assert_eq!(next, "ALARM 0418");
    /// assert_eq!(starts[6], 6);
    /// # Ok::<(), jiskromet::Refusal>(())
    /// ```
    decode_lossy = jk_fss_utf_decode_lossy;

    /// ```
    /// use jiskromet::{fss_utf, Content, Fault, Item, Refusal};
    ///
    /// let text = [0x34, 0xC2, 0xB0, 0x80];
    /// let degree = Item { offset: 1, length: 2, content: Content::Character(0xB0) };
    /// assert_eq!(fss_utf::item_at(&text, 1), Ok(Some(degree)));
    /// let stray = Item { offset: 3, length: 1, content: Content::Mark(Fault::StrayTrailing) };
    /// assert_eq!(fss_utf::item_at(&text, 3), Ok(Some(stray)));
    /// assert_eq!(fss_utf::item_at(&text, 4), Ok(None));
    /// assert_eq!(
    ///     fss_utf::item_at(&text, 5),
    ///     Err(Refusal { fault: Fault::OffsetOutOfRange, offset: 5 })
    /// );
    /// ```
    item_at = jk_fss_utf_item_at;

    /// To cut a text for a line of 24 bytes, cut it where an item starts. A text
    /// that fits is left as it is: no item covers its end, and to ask there is
    /// [`Fault::OffsetOutOfRange`](crate::Fault::OffsetOutOfRange).
    ///
    /// ```
    /// use jiskromet::{fss_utf, Refusal};
    ///
    /// fn cut(alarm: &[u8]) -> Result<&[u8], Refusal> {
    ///     if alarm.len() <= 24 {
    ///         return Ok(alarm);
    ///     }
    ///     Ok(&alarm[..fss_utf::item_covering(alarm, 24)?.offset])
    /// }
    ///
    /// let alarm = "Verdampfer 2: Fühler −18 °C".as_bytes();
    /// assert_eq!(cut(alarm)?, "Verdampfer 2: Fühler ".as_bytes());
    /// assert_eq!(cut(b"Pumpe 1 steht")?, b"Pumpe 1 steht");
    /// # Ok::<(), Refusal>(())
    /// ```
    item_covering = jk_fss_utf_item_covering;

    /// ```
    /// use jiskromet::{fss_utf, Content, Fault};
    ///
    /// let text = b"A\xC2\xA9\x80\xE2\x89\n";
    /// let read: Vec<_> = fss_utf::items(text)?
    ///     .map(|item| (item.offset, item.length, item.content))
    ///     .collect();
    /// assert_eq!(
    ///     read,
    ///     [
    ///         (0, 1, Content::Character(0x41)),
    ///         (1, 2, Content::Character(0xA9)),
    ///         (3, 1, Content::Mark(Fault::StrayTrailing)),
    ///         (4, 2, Content::Mark(Fault::MissingTrailing)),
    ///         (6, 1, Content::Character(0x0A)),
    ///     ]
    /// );
    /// # Ok::<(), jiskromet::Refusal>(())
    /// ```
    items;
}
