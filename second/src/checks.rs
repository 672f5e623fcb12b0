//! The groups of checks.

pub mod acceptance;
pub mod boundaries;
pub mod conversion;
pub mod covering;
mod lent;
pub mod limits;
pub mod listing;
pub mod lossy;
pub mod published;
pub mod random_texts;
mod reserved;
pub mod turned_away;
pub mod units;
pub mod walking;

use std::fmt::Display;

use conversion::ToOthers;

use crate::library::JkItem;
use crate::reference::{self, Content, Item, Reading};
use crate::report::{hex, Group};

/// Runs a group's generic part for each of the four forms.
macro_rules! each_form {
    ($part:ident($($argument:expr),*)) => {{
        $part::<crate::reference::FssUtf>($($argument),*);
        $part::<crate::reference::UtfEbcdic>($($argument),*);
        $part::<crate::reference::Utf16>($($argument),*);
        $part::<crate::reference::Ucs4>($($argument),*);
    }};
}
pub(crate) use each_form;

/// An item as a paper gives it: what it reads as, and its units.
pub type Told = (Content, usize);

pub fn character(value: u32, length: usize) -> Told {
    (Content::Character(value), length)
}

pub fn mark(fault: u32, length: usize) -> Told {
    (Content::Mark(fault), length)
}

/// Holds a text's items as a paper tells them to the reference's items, to
/// the library's answers from the first item on to the end, to the conversions
/// of the text to the three other forms, to its mended reading, and to the
/// items found from each of its units.
pub fn three_ways<F: ToOthers>(
    group: &mut Group,
    source: impl Display,
    units: &[u32],
    told: &[Told],
) {
    let text: Vec<F::Unit> = units.iter().map(|&unit| F::unit(unit)).collect();
    let mut expected = Vec::new();
    let mut start = 0;
    for &(content, length) in told {
        expected.push(Item {
            start,
            length,
            content,
        });
        start += length;
    }

    let items = reference::items::<F>(&text);
    group.check(items == expected, || {
        format!(
            "{source}: {} [{}]: the paper has {expected:?}, the reference {items:?}",
            F::NAME,
            hex::<F>(&text),
        )
    });
    for item in expected {
        let answer = JkItem::of(Reading::Item(item), item.start);
        group.answer::<F>(&text, item.start, answer, &source);
    }
    let end = JkItem::of(Reading::End, text.len());
    group.answer::<F>(&text, text.len(), end, &source);
    F::to_others(group, &source, &text, told);
    lossy::three_ways::<F>(group, &source, &text, told);
    covering::three_ways::<F>(group, &source, &text, told);
}

/// `three_ways` for a text that is one character, together with the
/// reference's encoding of its value.
pub fn one_character<F: ToOthers>(
    group: &mut Group,
    source: impl Display,
    value: u32,
    units: &[u32],
) {
    three_ways::<F>(group, &source, units, &[character(value, units.len())]);
    let legal: Option<Vec<u32>> =
        F::encode(value).map(|legal| legal.iter().map(|&unit| unit.into()).collect());
    group.check(legal.as_deref() == Some(units), || {
        format!(
            "{source}: {} for {value:X}: the paper has {units:X?}, the reference {legal:X?}",
            F::NAME
        )
    });
}

/// `one_character`, but where the paper gives a value that request 104 says is
/// none: one mark over all its units.
pub fn one_value<F: ToOthers>(group: &mut Group, source: impl Display, value: u32, units: &[u32]) {
    if reference::is_surrogate(value) {
        three_ways::<F>(group, &source, units, &[mark(10, units.len())]);
    } else {
        one_character::<F>(group, &source, value, units);
    }
}

/// The UTF-EBCDIC bytes of I8 bytes, as numbers.
pub fn from_i8(i8_bytes: &[u32]) -> Vec<u32> {
    i8_bytes
        .iter()
        .map(|&byte| reference::I8_TO_UTF_EBCDIC[byte as usize].into())
        .collect()
}
