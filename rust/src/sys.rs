//! The exports of `libjiskromet.a` as `include/jiskromet.h` declares them, and
//! their answers as Rust has them.
//!
//! The second program holds these declarations to the header and to the
//! library's own source; what an answer can be is the library's promise and is
//! not tested again. Counts and offsets fit in a `usize`: they are those of a
//! slice, or the offset that was asked for.

use crate::{Content, Counts, Fault, Item, Refusal};

#[repr(C)]
pub struct JkItem {
    kind: u32,
    fault: u32,
    value: u32,
    offset: u64,
    length: u64,
}

#[repr(C)]
pub struct JkConversion {
    fault: u32,
    offset: u64,
    units: u64,
}

#[repr(C)]
pub struct JkDecoding {
    fault: u32,
    offset: u64,
    items: u64,
    marks: u64,
}

extern "C" {
    pub fn jk_fss_utf_item_at(text: *const u8, len: usize, offset: usize) -> JkItem;
    pub fn jk_utf_ebcdic_item_at(text: *const u8, len: usize, offset: usize) -> JkItem;
    pub fn jk_utf16_item_at(text: *const u16, len: usize, offset: usize) -> JkItem;
    pub fn jk_ucs4_item_at(text: *const u32, len: usize, offset: usize) -> JkItem;

    pub fn jk_fss_utf_item_covering(text: *const u8, len: usize, offset: usize) -> JkItem;
    pub fn jk_utf_ebcdic_item_covering(text: *const u8, len: usize, offset: usize) -> JkItem;
    pub fn jk_utf16_item_covering(text: *const u16, len: usize, offset: usize) -> JkItem;
    pub fn jk_ucs4_item_covering(text: *const u32, len: usize, offset: usize) -> JkItem;

    pub fn jk_fss_utf_decode_lossy(
        text: *const u8,
        len: usize,
        values: *mut u32,
        values_len: usize,
        starts: *mut u32,
        starts_len: usize,
    ) -> JkDecoding;

    pub fn jk_utf_ebcdic_decode_lossy(
        text: *const u8,
        len: usize,
        values: *mut u32,
        values_len: usize,
        starts: *mut u32,
        starts_len: usize,
    ) -> JkDecoding;

    pub fn jk_utf16_decode_lossy(
        text: *const u16,
        len: usize,
        values: *mut u32,
        values_len: usize,
        starts: *mut u32,
        starts_len: usize,
    ) -> JkDecoding;

    pub fn jk_ucs4_decode_lossy(
        text: *const u32,
        len: usize,
        values: *mut u32,
        values_len: usize,
        starts: *mut u32,
        starts_len: usize,
    ) -> JkDecoding;

    pub fn jk_fss_utf_to_utf_ebcdic(
        src: *const u8,
        src_len: usize,
        dst: *mut u8,
        dst_len: usize,
    ) -> JkConversion;
    pub fn jk_fss_utf_to_utf_ebcdic_length(src: *const u8, src_len: usize) -> JkConversion;

    pub fn jk_fss_utf_to_utf16(
        src: *const u8,
        src_len: usize,
        dst: *mut u16,
        dst_len: usize,
    ) -> JkConversion;
    pub fn jk_fss_utf_to_utf16_length(src: *const u8, src_len: usize) -> JkConversion;

    pub fn jk_fss_utf_to_ucs4(
        src: *const u8,
        src_len: usize,
        dst: *mut u32,
        dst_len: usize,
    ) -> JkConversion;
    pub fn jk_fss_utf_to_ucs4_length(src: *const u8, src_len: usize) -> JkConversion;

    pub fn jk_utf_ebcdic_to_fss_utf(
        src: *const u8,
        src_len: usize,
        dst: *mut u8,
        dst_len: usize,
    ) -> JkConversion;
    pub fn jk_utf_ebcdic_to_fss_utf_length(src: *const u8, src_len: usize) -> JkConversion;

    pub fn jk_utf_ebcdic_to_utf16(
        src: *const u8,
        src_len: usize,
        dst: *mut u16,
        dst_len: usize,
    ) -> JkConversion;
    pub fn jk_utf_ebcdic_to_utf16_length(src: *const u8, src_len: usize) -> JkConversion;

    pub fn jk_utf_ebcdic_to_ucs4(
        src: *const u8,
        src_len: usize,
        dst: *mut u32,
        dst_len: usize,
    ) -> JkConversion;
    pub fn jk_utf_ebcdic_to_ucs4_length(src: *const u8, src_len: usize) -> JkConversion;

    pub fn jk_utf16_to_fss_utf(
        src: *const u16,
        src_len: usize,
        dst: *mut u8,
        dst_len: usize,
    ) -> JkConversion;
    pub fn jk_utf16_to_fss_utf_length(src: *const u16, src_len: usize) -> JkConversion;

    pub fn jk_utf16_to_utf_ebcdic(
        src: *const u16,
        src_len: usize,
        dst: *mut u8,
        dst_len: usize,
    ) -> JkConversion;
    pub fn jk_utf16_to_utf_ebcdic_length(src: *const u16, src_len: usize) -> JkConversion;

    pub fn jk_utf16_to_ucs4(
        src: *const u16,
        src_len: usize,
        dst: *mut u32,
        dst_len: usize,
    ) -> JkConversion;
    pub fn jk_utf16_to_ucs4_length(src: *const u16, src_len: usize) -> JkConversion;

    pub fn jk_ucs4_to_fss_utf(
        src: *const u32,
        src_len: usize,
        dst: *mut u8,
        dst_len: usize,
    ) -> JkConversion;
    pub fn jk_ucs4_to_fss_utf_length(src: *const u32, src_len: usize) -> JkConversion;

    pub fn jk_ucs4_to_utf_ebcdic(
        src: *const u32,
        src_len: usize,
        dst: *mut u8,
        dst_len: usize,
    ) -> JkConversion;
    pub fn jk_ucs4_to_utf_ebcdic_length(src: *const u32, src_len: usize) -> JkConversion;

    pub fn jk_ucs4_to_utf16(
        src: *const u32,
        src_len: usize,
        dst: *mut u16,
        dst_len: usize,
    ) -> JkConversion;
    pub fn jk_ucs4_to_utf16_length(src: *const u32, src_len: usize) -> JkConversion;
}

const END: u32 = 0;
const CHARACTER: u32 = 1;
const MARK: u32 = 2;
const REFUSAL: u32 = 3;

impl JkItem {
    /// An answer of `item_at`, which may be asked at the text's end.
    pub fn item_or_end(self) -> Result<Option<Item>, Refusal> {
        match self.kind {
            END => Ok(None),
            _ => self.item().map(Some),
        }
    }

    /// An answer of `item_covering`, which is never the text's end.
    pub fn item(self) -> Result<Item, Refusal> {
        let content = match self.kind {
            CHARACTER => Content::Character(self.value),
            MARK => Content::Mark(named(self.fault)),
            REFUSAL => return Err(refusal(self.fault, self.offset)),
            kind => panic!("libjiskromet.a gave an item of kind {kind}, which has no place here"),
        };
        Ok(Item {
            offset: self.offset as usize,
            length: self.length as usize,
            content,
        })
    }
}

impl JkConversion {
    pub fn result(self) -> Result<usize, Refusal> {
        match self.fault {
            0 => Ok(self.units as usize),
            fault => Err(refusal(fault, self.offset)),
        }
    }
}

impl JkDecoding {
    pub fn result(self) -> Result<Counts, Refusal> {
        match self.fault {
            0 => Ok(Counts {
                items: self.items as usize,
                marks: self.marks as usize,
            }),
            fault => Err(refusal(fault, self.offset)),
        }
    }
}

fn refusal(fault: u32, offset: u64) -> Refusal {
    Refusal {
        fault: named(fault),
        offset: offset as usize,
    }
}

/// A number without a name comes only from an archive of another delivery.
fn named(fault: u32) -> Fault {
    Fault::from_number(fault)
        .unwrap_or_else(|| panic!("libjiskromet.a gave fault {fault}, which this crate lacks"))
}
