//! The exports of `libjiskromet.a` and safe calls of them.
//!
//! `declarations.rs` reads this file and holds its declarations to the header
//! and to the library's own source.

use crate::reference::{Content, Form, FssUtf, Item, Reading, Refusal, Ucs4, Utf16, UtfEbcdic};

#[repr(C)]
#[derive(Clone, Copy, Debug, PartialEq, Eq)]
pub struct JkItem {
    pub kind: u32,
    pub fault: u32,
    pub value: u32,
    pub offset: u64,
    pub length: u64,
}

#[repr(C)]
#[derive(Clone, Copy, Debug, PartialEq, Eq)]
pub struct JkConversion {
    pub fault: u32,
    pub offset: u64,
    pub units: u64,
}

#[repr(C)]
#[derive(Clone, Copy, Debug, PartialEq, Eq)]
pub struct JkDecoding {
    pub fault: u32,
    pub offset: u64,
    pub items: u64,
    pub marks: u64,
}

extern "C" {
    fn jk_fss_utf_item_at(text: *const u8, len: usize, offset: usize) -> JkItem;
    fn jk_utf_ebcdic_item_at(text: *const u8, len: usize, offset: usize) -> JkItem;
    fn jk_utf16_item_at(text: *const u16, len: usize, offset: usize) -> JkItem;
    fn jk_ucs4_item_at(text: *const u32, len: usize, offset: usize) -> JkItem;

    fn jk_fss_utf_decode_lossy(
        text: *const u8,
        len: usize,
        values: *mut u32,
        values_len: usize,
        starts: *mut u32,
        starts_len: usize,
    ) -> JkDecoding;
    fn jk_fss_utf_item_covering(text: *const u8, len: usize, offset: usize) -> JkItem;

    fn jk_utf_ebcdic_decode_lossy(
        text: *const u8,
        len: usize,
        values: *mut u32,
        values_len: usize,
        starts: *mut u32,
        starts_len: usize,
    ) -> JkDecoding;
    fn jk_utf_ebcdic_item_covering(text: *const u8, len: usize, offset: usize) -> JkItem;

    fn jk_utf16_decode_lossy(
        text: *const u16,
        len: usize,
        values: *mut u32,
        values_len: usize,
        starts: *mut u32,
        starts_len: usize,
    ) -> JkDecoding;
    fn jk_utf16_item_covering(text: *const u16, len: usize, offset: usize) -> JkItem;

    fn jk_ucs4_decode_lossy(
        text: *const u32,
        len: usize,
        values: *mut u32,
        values_len: usize,
        starts: *mut u32,
        starts_len: usize,
    ) -> JkDecoding;
    fn jk_ucs4_item_covering(text: *const u32, len: usize, offset: usize) -> JkItem;

    fn jk_fss_utf_to_utf_ebcdic(
        src: *const u8,
        src_len: usize,
        dst: *mut u8,
        dst_len: usize,
    ) -> JkConversion;
    fn jk_fss_utf_to_utf_ebcdic_length(src: *const u8, src_len: usize) -> JkConversion;

    fn jk_fss_utf_to_utf16(
        src: *const u8,
        src_len: usize,
        dst: *mut u16,
        dst_len: usize,
    ) -> JkConversion;
    fn jk_fss_utf_to_utf16_length(src: *const u8, src_len: usize) -> JkConversion;

    fn jk_fss_utf_to_ucs4(
        src: *const u8,
        src_len: usize,
        dst: *mut u32,
        dst_len: usize,
    ) -> JkConversion;
    fn jk_fss_utf_to_ucs4_length(src: *const u8, src_len: usize) -> JkConversion;

    fn jk_utf_ebcdic_to_fss_utf(
        src: *const u8,
        src_len: usize,
        dst: *mut u8,
        dst_len: usize,
    ) -> JkConversion;
    fn jk_utf_ebcdic_to_fss_utf_length(src: *const u8, src_len: usize) -> JkConversion;

    fn jk_utf_ebcdic_to_utf16(
        src: *const u8,
        src_len: usize,
        dst: *mut u16,
        dst_len: usize,
    ) -> JkConversion;
    fn jk_utf_ebcdic_to_utf16_length(src: *const u8, src_len: usize) -> JkConversion;

    fn jk_utf_ebcdic_to_ucs4(
        src: *const u8,
        src_len: usize,
        dst: *mut u32,
        dst_len: usize,
    ) -> JkConversion;
    fn jk_utf_ebcdic_to_ucs4_length(src: *const u8, src_len: usize) -> JkConversion;

    fn jk_utf16_to_fss_utf(
        src: *const u16,
        src_len: usize,
        dst: *mut u8,
        dst_len: usize,
    ) -> JkConversion;
    fn jk_utf16_to_fss_utf_length(src: *const u16, src_len: usize) -> JkConversion;

    fn jk_utf16_to_utf_ebcdic(
        src: *const u16,
        src_len: usize,
        dst: *mut u8,
        dst_len: usize,
    ) -> JkConversion;
    fn jk_utf16_to_utf_ebcdic_length(src: *const u16, src_len: usize) -> JkConversion;

    fn jk_utf16_to_ucs4(
        src: *const u16,
        src_len: usize,
        dst: *mut u32,
        dst_len: usize,
    ) -> JkConversion;
    fn jk_utf16_to_ucs4_length(src: *const u16, src_len: usize) -> JkConversion;

    fn jk_ucs4_to_fss_utf(
        src: *const u32,
        src_len: usize,
        dst: *mut u8,
        dst_len: usize,
    ) -> JkConversion;
    fn jk_ucs4_to_fss_utf_length(src: *const u32, src_len: usize) -> JkConversion;

    fn jk_ucs4_to_utf_ebcdic(
        src: *const u32,
        src_len: usize,
        dst: *mut u8,
        dst_len: usize,
    ) -> JkConversion;
    fn jk_ucs4_to_utf_ebcdic_length(src: *const u32, src_len: usize) -> JkConversion;

    fn jk_ucs4_to_utf16(
        src: *const u32,
        src_len: usize,
        dst: *mut u16,
        dst_len: usize,
    ) -> JkConversion;
    fn jk_ucs4_to_utf16_length(src: *const u32, src_len: usize) -> JkConversion;
}

pub const END: u32 = 0;
pub const CHARACTER: u32 = 1;
pub const MARK: u32 = 2;
pub const REFUSAL: u32 = 3;

impl JkItem {
    /// The answer that a reading at `asked` comes back as.
    pub fn of(reading: Reading, asked: usize) -> Self {
        let end = JkItem {
            kind: END,
            fault: 0,
            value: 0,
            offset: asked as u64,
            length: 0,
        };
        match reading {
            Reading::End => end,
            Reading::Item(Item {
                length,
                content: Content::Character(value),
                ..
            }) => JkItem {
                kind: CHARACTER,
                value,
                length: length as u64,
                ..end
            },
            Reading::Item(Item {
                length,
                content: Content::Mark(fault),
                ..
            }) => JkItem {
                kind: MARK,
                fault,
                length: length as u64,
                ..end
            },
            Reading::Refusal { fault, offset } => JkItem {
                kind: REFUSAL,
                fault,
                offset: offset as u64,
                ..end
            },
        }
    }

    /// The answer that the item found for a place, or a refusal, comes back as.
    pub fn found(item: Result<Item, Refusal>) -> Self {
        match item {
            Ok(item) => JkItem::of(Reading::Item(item), item.start),
            Err(Refusal { fault, offset }) => {
                JkItem::of(Reading::Refusal { fault, offset }, offset)
            }
        }
    }
}

impl JkConversion {
    /// The answer that so many units, or a refusal, come back as.
    pub fn of(units: Result<usize, Refusal>) -> Self {
        match units {
            Ok(units) => JkConversion {
                fault: 0,
                offset: 0,
                units: units as u64,
            },
            Err(Refusal { fault, offset }) => JkConversion {
                fault,
                offset: offset as u64,
                units: 0,
            },
        }
    }
}

impl JkDecoding {
    /// The answer that so many items and marks, or a refusal, come back as.
    pub fn of(counts: Result<(usize, usize), Refusal>) -> Self {
        match counts {
            Ok((items, marks)) => JkDecoding {
                fault: 0,
                offset: 0,
                items: items as u64,
                marks: marks as u64,
            },
            Err(Refusal { fault, offset }) => JkDecoding {
                fault,
                offset: offset as u64,
                items: 0,
                marks: 0,
            },
        }
    }
}

/// A form whose exports are linked.
pub trait Linked: Form {
    /// The one-item reader as C calls it.
    ///
    /// # Safety
    ///
    /// `text` points to `len` units, or `len` is 0.
    unsafe fn raw_item_at(text: *const Self::Unit, len: usize, offset: usize) -> JkItem;

    fn item_at(text: &[Self::Unit], offset: usize) -> JkItem {
        // SAFETY: pointer and length are those of a slice.
        unsafe { Self::raw_item_at(text.as_ptr(), text.len(), offset) }
    }

    /// The mended reading as C calls it.
    ///
    /// # Safety
    ///
    /// `text` points to `len` units, or `len` is 0. `values` and `starts` point
    /// to as many cells as are told, which no reference borrows and of which
    /// none is shared, or their number is 0.
    unsafe fn raw_decode_lossy(
        text: *const Self::Unit,
        len: usize,
        values: *mut u32,
        values_len: usize,
        starts: *mut u32,
        starts_len: usize,
    ) -> JkDecoding;

    fn decode_lossy(text: &[Self::Unit], values: &mut [u32], starts: &mut [u32]) -> JkDecoding {
        // SAFETY: pointers and lengths are those of slices.
        unsafe {
            Self::raw_decode_lossy(
                text.as_ptr(),
                text.len(),
                values.as_mut_ptr(),
                values.len(),
                starts.as_mut_ptr(),
                starts.len(),
            )
        }
    }

    /// The finder of the item that covers a place, as C calls it.
    ///
    /// # Safety
    ///
    /// `text` points to `len` units, or `len` is 0.
    unsafe fn raw_item_covering(text: *const Self::Unit, len: usize, offset: usize) -> JkItem;

    fn item_covering(text: &[Self::Unit], offset: usize) -> JkItem {
        // SAFETY: pointer and length are those of a slice.
        unsafe { Self::raw_item_covering(text.as_ptr(), text.len(), offset) }
    }
}

/// A form whose conversion to the form `G` is linked.
pub trait LinkedTo<G: Form>: Form {
    /// The strict conversion as C calls it.
    ///
    /// # Safety
    ///
    /// `src` points to `src_len` units, or `src_len` is 0. `dst` points to
    /// `dst_len` cells that no reference borrows, or `dst_len` is 0.
    unsafe fn raw_convert(
        src: *const Self::Unit,
        src_len: usize,
        dst: *mut G::Unit,
        dst_len: usize,
    ) -> JkConversion;

    /// The measure as C calls it.
    ///
    /// # Safety
    ///
    /// `src` points to `src_len` units, or `src_len` is 0.
    unsafe fn raw_measure(src: *const Self::Unit, src_len: usize) -> JkConversion;

    fn convert(text: &[Self::Unit], result: &mut [G::Unit]) -> JkConversion {
        // SAFETY: pointers and lengths are those of slices.
        unsafe { Self::raw_convert(text.as_ptr(), text.len(), result.as_mut_ptr(), result.len()) }
    }

    fn measure(text: &[Self::Unit]) -> JkConversion {
        // SAFETY: pointer and length are those of a slice.
        unsafe { Self::raw_measure(text.as_ptr(), text.len()) }
    }
}

macro_rules! link {
    ($form:ty, $item_at:ident, $decode_lossy:ident, $item_covering:ident) => {
        impl Linked for $form {
            unsafe fn raw_item_at(text: *const Self::Unit, len: usize, offset: usize) -> JkItem {
                $item_at(text, len, offset)
            }

            unsafe fn raw_decode_lossy(
                text: *const Self::Unit,
                len: usize,
                values: *mut u32,
                values_len: usize,
                starts: *mut u32,
                starts_len: usize,
            ) -> JkDecoding {
                $decode_lossy(text, len, values, values_len, starts, starts_len)
            }

            unsafe fn raw_item_covering(
                text: *const Self::Unit,
                len: usize,
                offset: usize,
            ) -> JkItem {
                $item_covering(text, len, offset)
            }
        }
    };
}

link!(
    FssUtf,
    jk_fss_utf_item_at,
    jk_fss_utf_decode_lossy,
    jk_fss_utf_item_covering
);
link!(
    UtfEbcdic,
    jk_utf_ebcdic_item_at,
    jk_utf_ebcdic_decode_lossy,
    jk_utf_ebcdic_item_covering
);
link!(
    Utf16,
    jk_utf16_item_at,
    jk_utf16_decode_lossy,
    jk_utf16_item_covering
);
link!(
    Ucs4,
    jk_ucs4_item_at,
    jk_ucs4_decode_lossy,
    jk_ucs4_item_covering
);

macro_rules! link_pair {
    ($from:ty, $to:ty, $convert:ident, $measure:ident) => {
        impl LinkedTo<$to> for $from {
            unsafe fn raw_convert(
                src: *const <$from as Form>::Unit,
                src_len: usize,
                dst: *mut <$to as Form>::Unit,
                dst_len: usize,
            ) -> JkConversion {
                $convert(src, src_len, dst, dst_len)
            }

            unsafe fn raw_measure(
                src: *const <$from as Form>::Unit,
                src_len: usize,
            ) -> JkConversion {
                $measure(src, src_len)
            }
        }
    };
}

link_pair!(
    FssUtf,
    UtfEbcdic,
    jk_fss_utf_to_utf_ebcdic,
    jk_fss_utf_to_utf_ebcdic_length
);
link_pair!(
    FssUtf,
    Utf16,
    jk_fss_utf_to_utf16,
    jk_fss_utf_to_utf16_length
);
link_pair!(FssUtf, Ucs4, jk_fss_utf_to_ucs4, jk_fss_utf_to_ucs4_length);
link_pair!(
    UtfEbcdic,
    FssUtf,
    jk_utf_ebcdic_to_fss_utf,
    jk_utf_ebcdic_to_fss_utf_length
);
link_pair!(
    UtfEbcdic,
    Utf16,
    jk_utf_ebcdic_to_utf16,
    jk_utf_ebcdic_to_utf16_length
);
link_pair!(
    UtfEbcdic,
    Ucs4,
    jk_utf_ebcdic_to_ucs4,
    jk_utf_ebcdic_to_ucs4_length
);
link_pair!(
    Utf16,
    FssUtf,
    jk_utf16_to_fss_utf,
    jk_utf16_to_fss_utf_length
);
link_pair!(
    Utf16,
    UtfEbcdic,
    jk_utf16_to_utf_ebcdic,
    jk_utf16_to_utf_ebcdic_length
);
link_pair!(Utf16, Ucs4, jk_utf16_to_ucs4, jk_utf16_to_ucs4_length);
link_pair!(Ucs4, FssUtf, jk_ucs4_to_fss_utf, jk_ucs4_to_fss_utf_length);
link_pair!(
    Ucs4,
    UtfEbcdic,
    jk_ucs4_to_utf_ebcdic,
    jk_ucs4_to_utf_ebcdic_length
);
link_pair!(Ucs4, Utf16, jk_ucs4_to_utf16, jk_ucs4_to_utf16_length);
