//! The values at the bounds of each length, whole, cut short, overlong, and
//! between neighbours.

use super::conversion::ToOthers;
use super::{each_form, one_value};
use crate::library::{JkItem, Linked};
use crate::reference::{
    exchanged, is_surrogate, Content, Form, FssUtf, Item, Layout, Reading, UtfEbcdic, FSS_UTF,
    HIGHEST_VALUE, I8, I8_TO_UTF_EBCDIC,
};
use crate::report::Group;

pub fn check(group: &mut Group) {
    each_form!(whole_and_cut(group));
    overlong::<FssUtf>(group, &FSS_UTF, |bytes| bytes.to_vec());
    overlong::<UtfEbcdic>(group, &I8, |bytes| exchanged(bytes).to_vec());
}

/// Each bound of any form's lengths, with the values next to it.
pub fn boundary_values() -> Vec<u32> {
    let rows = FSS_UTF.rows.iter().chain(I8.rows);
    let mut bounds: Vec<u32> = rows.flat_map(|row| [row.lowest, row.highest]).collect();
    bounds.extend([
        0xD800, 0xDBFF, 0xDC00, 0xDFFF, 0xFEFF, 0xFFFE, 0xFFFF, 0x1_0000, 0x10_FFFF,
    ]);
    let mut values: Vec<u32> = bounds
        .iter()
        .flat_map(|&bound| [bound.saturating_sub(1), bound, bound + 1])
        .filter(|&value| value <= HIGHEST_VALUE)
        .collect();
    values.sort_unstable();
    values.dedup();
    values
}

/// Units of every role, to stand beside a character.
fn neighbours<F: Linked>() -> Vec<F::Unit> {
    let bytes = [
        0x00, 0x41, 0x7F, 0x80, 0x9F, 0xA0, 0xBF, 0xC0, 0xC2, 0xDF, 0xE0, 0xE1, 0xEF, 0xF0, 0xF7,
        0xF8, 0xFB, 0xFC, 0xFD, 0xFE, 0xFF,
    ];
    let numbers: Vec<u32> = match size_of::<F::Unit>() {
        1 if F::NAME == UtfEbcdic::NAME => bytes
            .iter()
            .map(|&byte| I8_TO_UTF_EBCDIC[byte as usize].into())
            .collect(),
        1 => bytes.to_vec(),
        2 => vec![
            0x0, 0x41, 0xD7FF, 0xD800, 0xDBFF, 0xDC00, 0xDFFF, 0xE000, 0xFFFF,
        ],
        _ => vec![
            0x0,
            0x41,
            0xD800,
            0xDC00,
            0x7FFF_FFFF,
            0x8000_0000,
            0xFFFF_FFFF,
        ],
    };
    numbers.into_iter().map(F::unit).collect()
}

fn whole_and_cut<F: ToOthers>(group: &mut Group) {
    for value in boundary_values() {
        let Some(sequence) = F::shortest(value) else {
            continue;
        };
        let units: Vec<u32> = sequence.iter().map(|&unit| unit.into()).collect();
        one_value::<F>(group, "boundary value", value, &units);
        group.agree_everywhere::<F>(&sequence, "boundary value");

        // The units beyond the end complete the sequence, but are not lent.
        for length in 1..sequence.len() {
            let cut = &sequence[..length];
            let answer = told(0, length, Content::Mark(2));
            group.answer::<F>(cut, 0, answer, "boundary value cut short");
            group.agree_everywhere::<F>(cut, "boundary value cut short");
        }

        let content = match is_surrogate(value) {
            true => Content::Mark(10),
            false => Content::Character(value),
        };
        for before in neighbours::<F>() {
            for after in neighbours::<F>() {
                let mut text = vec![before];
                text.extend_from_slice(&sequence);
                text.push(after);
                let answer = told(1, sequence.len(), content);
                group.answer::<F>(&text, 1, answer, "boundary value between neighbours");
                group.agree_everywhere::<F>(&text, "boundary value between neighbours");
            }
        }
    }
}

/// Every longer spelling of a value that the layout has room for.
fn overlong<F: Linked<Unit = u8>>(
    group: &mut Group,
    layout: &Layout,
    to_form: fn(&[u8]) -> Vec<u8>,
) {
    for value in boundary_values() {
        let shortest = F::shortest(value).map_or(0, |shortest| shortest.len());
        for row in layout.rows.iter().filter(|row| row.length > shortest) {
            let Some(bytes) = layout.spell(row, value) else {
                continue;
            };
            let bytes = to_form(&bytes);
            let answer = told(0, row.length, Content::Mark(5));
            group.answer::<F>(&bytes, 0, answer, "overlong");
            group.agree_everywhere::<F>(&bytes, "overlong");
            for length in 1..bytes.len() {
                let answer = told(0, length, Content::Mark(2));
                group.answer::<F>(&bytes[..length], 0, answer, "overlong cut short");
            }
            for neighbour in neighbours::<F>() {
                let text = [&[neighbour], &bytes[..], &[neighbour]].concat();
                let answer = told(1, row.length, Content::Mark(5));
                group.answer::<F>(&text, 1, answer, "overlong between neighbours");
                group.agree_everywhere::<F>(&text, "overlong between neighbours");
            }
        }
    }
}

fn told(start: usize, length: usize, content: Content) -> JkItem {
    JkItem::of(
        Reading::Item(Item {
            start,
            length,
            content,
        }),
        start,
    )
}
