//! The UTF-EBCDIC pairs as one would write them by hand: a checked pass over
//! slices that writes as it goes. Where it refuses, the buffer is half written.

use crate::reference::{I8_TO_UTF_EBCDIC, UTF_EBCDIC_TO_I8};

/// A character's value and its length in units.
type Read = Option<(u32, usize)>;

#[inline(always)]
fn is_surrogate(value: u32) -> bool {
    (0xD800..=0xDFFF).contains(&value)
}

/// What strict conversion turns away.
#[inline(always)]
fn is_noncharacter(value: u32) -> bool {
    matches!(value, 0xFFFE | 0xFFFF)
}

#[inline(always)]
fn read_utf_ebcdic(src: &[u8], at: usize) -> Read {
    let first = UTF_EBCDIC_TO_I8[usize::from(src[at])];
    let (length, free, lowest) = match first {
        0x00..=0x9F => return Some((first.into(), 1)),
        0xA0..=0xBF => return None,
        0xC0..=0xDF => (2, first - 0xC0, 0xA0),
        0xE0..=0xEF => (3, first - 0xE0, 0x400),
        0xF0..=0xF7 => (4, first - 0xF0, 0x4000),
        0xF8..=0xFB => (5, first - 0xF8, 0x4_0000),
        0xFC..=0xFD => (6, first - 0xFC, 0x40_0000),
        0xFE..=0xFF => (7, first - 0xFE, 0x400_0000),
    };
    let mut value = u32::from(free);
    for &byte in src.get(at + 1..at + length)? {
        let trailing = UTF_EBCDIC_TO_I8[usize::from(byte)];
        if trailing & 0xE0 != 0xA0 {
            return None;
        }
        value = value << 5 | u32::from(trailing & 0x1F);
    }
    (value >= lowest && !is_surrogate(value)).then_some((value, length))
}

#[inline(always)]
fn read_fss_utf(src: &[u8], at: usize) -> Read {
    let first = src[at];
    let (length, free, lowest) = match first {
        0x00..=0x7F => return Some((first.into(), 1)),
        0x80..=0xBF | 0xFE..=0xFF => return None,
        0xC0..=0xDF => (2, first - 0xC0, 0x80),
        0xE0..=0xEF => (3, first - 0xE0, 0x800),
        0xF0..=0xF7 => (4, first - 0xF0, 0x1_0000),
        0xF8..=0xFB => (5, first - 0xF8, 0x20_0000),
        0xFC..=0xFD => (6, first - 0xFC, 0x400_0000),
    };
    let mut value = u32::from(free);
    for &byte in src.get(at + 1..at + length)? {
        if byte & 0xC0 != 0x80 {
            return None;
        }
        value = value << 6 | u32::from(byte & 0x3F);
    }
    (value >= lowest && !is_surrogate(value)).then_some((value, length))
}

#[inline(always)]
fn read_utf16(src: &[u16], at: usize) -> Read {
    match src[at] {
        high @ 0xD800..=0xDBFF => match src.get(at + 1) {
            Some(low @ 0xDC00..=0xDFFF) => {
                let above = u32::from(high - 0xD800) << 10 | u32::from(low - 0xDC00);
                Some((0x1_0000 + above, 2))
            }
            _ => None,
        },
        0xDC00..=0xDFFF => None,
        unit => Some((unit.into(), 1)),
    }
}

#[inline(always)]
fn read_ucs4(src: &[u32], at: usize) -> Read {
    (src[at] < 0x8000_0000 && !is_surrogate(src[at])).then_some((src[at], 1))
}

/// Writes a value at the front of a buffer, and tells its length.
type Written = Option<usize>;

#[inline(always)]
fn write_utf_ebcdic(value: u32, dst: &mut [u8]) -> Written {
    let exchange = |byte: u8| I8_TO_UTF_EBCDIC[usize::from(byte)];
    let (base, length) = match value {
        0..=0x9F => {
            *dst.first_mut()? = exchange(value as u8);
            return Some(1);
        }
        0xA0..=0x3FF => (0xC0, 2),
        0x400..=0x3FFF => (0xE0, 3),
        0x4000..=0x3_FFFF => (0xF0, 4),
        0x4_0000..=0x3F_FFFF => (0xF8, 5),
        0x40_0000..=0x3FF_FFFF => (0xFC, 6),
        _ => (0xFE, 7),
    };
    let dst = dst.get_mut(..length)?;
    let mut rest = value;
    for cell in dst[1..].iter_mut().rev() {
        *cell = exchange(0xA0 | (rest & 0x1F) as u8);
        rest >>= 5;
    }
    dst[0] = exchange(base + rest as u8);
    Some(length)
}

#[inline(always)]
fn write_fss_utf(value: u32, dst: &mut [u8]) -> Written {
    let (base, length) = match value {
        0..=0x7F => {
            *dst.first_mut()? = value as u8;
            return Some(1);
        }
        0x80..=0x7FF => (0xC0, 2),
        0x800..=0xFFFF => (0xE0, 3),
        0x1_0000..=0x1F_FFFF => (0xF0, 4),
        0x20_0000..=0x3FF_FFFF => (0xF8, 5),
        _ => (0xFC, 6),
    };
    let dst = dst.get_mut(..length)?;
    let mut rest = value;
    for cell in dst[1..].iter_mut().rev() {
        *cell = 0x80 | (rest & 0x3F) as u8;
        rest >>= 6;
    }
    dst[0] = base + rest as u8;
    Some(length)
}

#[inline(always)]
fn write_utf16(value: u32, dst: &mut [u16]) -> Written {
    match value {
        0..=0xFFFF => {
            *dst.first_mut()? = value as u16;
            Some(1)
        }
        0x1_0000..=0x10_FFFF => {
            let above = value - 0x1_0000;
            let dst = dst.get_mut(..2)?;
            dst[0] = 0xD800 + (above >> 10) as u16;
            dst[1] = 0xDC00 + (above & 0x3FF) as u16;
            Some(2)
        }
        _ => None,
    }
}

#[inline(always)]
fn write_ucs4(value: u32, dst: &mut [u32]) -> Written {
    *dst.first_mut()? = value;
    Some(1)
}

#[inline(always)]
fn convert<F, G>(
    src: &[F],
    dst: &mut [G],
    read: impl Fn(&[F], usize) -> Read,
    write: impl Fn(u32, &mut [G]) -> Written,
) -> Option<usize> {
    let mut at = 0;
    let mut written = 0;
    while at < src.len() {
        let (value, length) = read(src, at)?;
        if is_noncharacter(value) {
            return None;
        }
        at += length;
        written += write(value, &mut dst[written..])?;
    }
    Some(written)
}

pub fn utf_ebcdic_to_fss_utf(src: &[u8], dst: &mut [u8]) -> Option<usize> {
    convert(src, dst, read_utf_ebcdic, write_fss_utf)
}

pub fn utf_ebcdic_to_utf16(src: &[u8], dst: &mut [u16]) -> Option<usize> {
    convert(src, dst, read_utf_ebcdic, write_utf16)
}

pub fn utf_ebcdic_to_ucs4(src: &[u8], dst: &mut [u32]) -> Option<usize> {
    convert(src, dst, read_utf_ebcdic, write_ucs4)
}

pub fn fss_utf_to_utf_ebcdic(src: &[u8], dst: &mut [u8]) -> Option<usize> {
    convert(src, dst, read_fss_utf, write_utf_ebcdic)
}

pub fn utf16_to_utf_ebcdic(src: &[u16], dst: &mut [u8]) -> Option<usize> {
    convert(src, dst, read_utf16, write_utf_ebcdic)
}

pub fn ucs4_to_utf_ebcdic(src: &[u32], dst: &mut [u8]) -> Option<usize> {
    convert(src, dst, read_ucs4, write_utf_ebcdic)
}
