//! Random and damaged texts in every room, and every unit and pair of bytes.

use super::{decodes, fills};
use crate::checks::each_form;
use crate::library::Linked;
use crate::random::{draw, Drawn, Random};
use crate::reference::{decode_lossy, Decoded, FssUtf, Utf16, UtfEbcdic};
use crate::report::Group;

const TEXTS_OF_EACH_FORM: usize = 40_000;

pub fn check(group: &mut Group) {
    let mut items = 0;
    let mut marks = 0;
    each_form!(texts(group, &mut items, &mut marks));
    group.note(format!(
        "{} texts with {items} items, {marks} of them marks",
        4 * TEXTS_OF_EACH_FORM
    ));
    bytes::<FssUtf>(group);
    bytes::<UtfEbcdic>(group);
    for unit in 0..=0xFFFF {
        agree::<Utf16>(group, "unit", &[unit]);
    }
}

/// `decodes` with what the reference gives.
fn agree<F: Linked + Drawn>(group: &mut Group, source: &str, text: &[F::Unit]) {
    decodes::<F>(group, source, text, &decode_lossy::<F>(text));
}

fn texts<F: Linked + Drawn>(group: &mut Group, items: &mut usize, marks: &mut usize) {
    let mut random = Random::new(0xC00 + F::LONGEST_ITEM as u64);
    let mut text = Vec::new();
    for number in 0..TEXTS_OF_EACH_FORM {
        let longest = match number % 4096 {
            0 => 2_000,
            rest if rest % 16 == 0 => 64,
            _ => 24,
        };
        draw::<F>(&mut text, longest, &mut random);
        let expected = decode_lossy::<F>(&text);
        decodes::<F>(group, "random text", &text, &expected);
        if let Ok(decoded) = expected {
            *items += decoded.items();
            *marks += decoded.marks();
        }
    }
}

/// Each byte alone in every room, and each pair of bytes in just enough.
fn bytes<F: Linked + Drawn<Unit = u8>>(group: &mut Group) {
    for first in 0..=0xFF {
        agree::<F>(group, "byte", &[first]);
        for second in 0..=0xFF {
            let pair = [first, second];
            let expected = decode_lossy::<F>(&pair);
            let room = expected.as_ref().map_or(0, Decoded::items);
            fills::<F>(group, "pair of bytes", &pair, &expected, room, room);
        }
    }
}
