//! The same conversions with Rust's standard library, into lent buffers.

use std::str;

use crate::reference::MARK_VALUE;

/// Characters written as UTF-8.
fn put_utf8(characters: impl Iterator<Item = Option<char>>, dst: &mut [u8]) -> Option<usize> {
    let mut written = 0;
    for character in characters {
        let character = character?;
        let rest = dst.get_mut(written..written + character.len_utf8())?;
        written += character.encode_utf8(rest).len();
    }
    Some(written)
}

/// Single units written one after the other.
fn put<U>(units: impl Iterator<Item = Option<U>>, dst: &mut [U]) -> Option<usize> {
    let mut written = 0;
    for unit in units {
        *dst.get_mut(written)? = unit?;
        written += 1;
    }
    Some(written)
}

pub fn utf8_to_utf16(src: &[u8], dst: &mut [u16]) -> Option<usize> {
    put(str::from_utf8(src).ok()?.encode_utf16().map(Some), dst)
}

pub fn utf8_to_utf32(src: &[u8], dst: &mut [u32]) -> Option<usize> {
    let characters = str::from_utf8(src).ok()?.chars();
    put(characters.map(|character| Some(character.into())), dst)
}

pub fn utf16_to_utf8(src: &[u16], dst: &mut [u8]) -> Option<usize> {
    put_utf8(char::decode_utf16(src.iter().copied()).map(Result::ok), dst)
}

pub fn utf16_to_utf32(src: &[u16], dst: &mut [u32]) -> Option<usize> {
    let characters = char::decode_utf16(src.iter().copied());
    put(
        characters.map(|character| Some(character.ok()?.into())),
        dst,
    )
}

pub fn utf32_to_utf8(src: &[u32], dst: &mut [u8]) -> Option<usize> {
    put_utf8(src.iter().map(|&value| char::from_u32(value)), dst)
}

pub fn utf32_to_utf16(src: &[u32], dst: &mut [u16]) -> Option<usize> {
    let mut written = 0;
    for &value in src {
        let character = char::from_u32(value)?;
        let rest = dst.get_mut(written..written + character.len_utf16())?;
        written += character.encode_utf16(rest).len();
    }
    Some(written)
}

pub fn utf8_to_utf16_count(src: &[u8]) -> Option<usize> {
    Some(str::from_utf8(src).ok()?.encode_utf16().count())
}

pub fn utf8_to_utf32_count(src: &[u8]) -> Option<usize> {
    Some(str::from_utf8(src).ok()?.chars().count())
}

pub fn utf16_to_utf8_count(src: &[u16]) -> Option<usize> {
    char::decode_utf16(src.iter().copied())
        .map(|character| Some(character.ok()?.len_utf8()))
        .sum()
}

pub fn utf16_to_utf32_count(src: &[u16]) -> Option<usize> {
    char::decode_utf16(src.iter().copied())
        .map(|character| character.ok().map(|_| 1))
        .sum()
}

pub fn utf32_to_utf8_count(src: &[u32]) -> Option<usize> {
    src.iter()
        .map(|&value| char::from_u32(value).map(char::len_utf8))
        .sum()
}

pub fn utf32_to_utf16_count(src: &[u32]) -> Option<usize> {
    src.iter()
        .map(|&value| char::from_u32(value).map(char::len_utf16))
        .sum()
}

/// `String::from_utf8_lossy` and `char_indices`. Its starts count in the mended
/// string, not in the source.
pub fn utf8_lossy(src: &[u8], values: &mut [u32], starts: &mut [u32]) -> Option<usize> {
    let text = String::from_utf8_lossy(src);
    let mut items = 0;
    let cells = values.iter_mut().zip(starts.iter_mut());
    for ((value, start), (at, character)) in cells.zip(text.char_indices()) {
        *value = character.into();
        *start = at as u32;
        items += 1;
    }
    Some(items)
}

/// `char::decode_utf16`, with a mark for what it refuses.
pub fn utf16_lossy(src: &[u16], values: &mut [u32], starts: &mut [u32]) -> Option<usize> {
    let mut items = 0;
    let mut at = 0;
    let cells = values.iter_mut().zip(starts.iter_mut());
    for ((value, start), character) in cells.zip(char::decode_utf16(src.iter().copied())) {
        *start = at;
        match character {
            Ok(character) => {
                *value = character.into();
                at += character.len_utf16() as u32;
            }
            Err(_) => {
                *value = MARK_VALUE;
                at += 1;
            }
        }
        items += 1;
    }
    Some(items)
}
