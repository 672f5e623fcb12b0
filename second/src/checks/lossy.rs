//! The mended reading of a whole text.

pub mod accident;
pub mod limits;
pub mod parts;
pub mod texts;

use std::fmt::Display;

use super::lent::Lent;
use super::Told;
use crate::library::{JkDecoding, Linked};
use crate::random::Drawn;
use crate::reference::{decode_lossy, given, Decoded, Form, Mended, Refusal, Ucs4, MARK_VALUE};
use crate::report::{hex, told_decoding, Group};

/// What a text with these items gives.
fn of_items(told: &[Told]) -> Decoded {
    let mut decoded = Decoded::default();
    let mut start = 0;
    for &(content, length) in told {
        decoded.add(content, start);
        start += length;
    }
    decoded
}

/// Holds the items that a paper tells of a text to the reference's mended
/// reading and to the library's.
pub fn three_ways<F: Linked + Drawn>(
    group: &mut Group,
    source: impl Display,
    text: &[F::Unit],
    told: &[Told],
) {
    let expected = Ok(of_items(told));
    let reference = decode_lossy::<F>(text);
    group.check(reference == expected, || {
        format!(
            "{source}: mended reading of {}: expected {}, the reference has {}",
            named::<F>(text),
            told_mended(&expected),
            told_mended(&reference),
        )
    });
    decodes::<F>(group, source, text, &expected);
}

/// Holds the library's mended reading of a text to what it shall give, in every
/// room of `rooms`.
pub fn decodes<F: Linked + Drawn>(
    group: &mut Group,
    source: impl Display,
    text: &[F::Unit],
    expected: &Mended,
) {
    for (values_room, starts_room) in rooms(text.len(), expected) {
        fills::<F>(group, &source, text, expected, values_room, starts_room);
    }
}

/// Cells for values and for starts: none, one too few in either or in both,
/// just enough, more, and not the same number. A text that is too long is so in
/// any room.
fn rooms(units: usize, expected: &Mended) -> Vec<(usize, usize)> {
    let mut rooms = match expected {
        Ok(decoded) => {
            let enough = decoded.items();
            let few = enough.saturating_sub(1);
            let more = enough + 5;
            vec![
                (0, 0),
                (0, enough),
                (enough, 0),
                (few, few),
                (few, enough),
                (enough, few),
                (few, more),
                (more, few),
                (enough, enough),
                (enough, more),
                (more, enough),
                (enough + 1, enough + 1),
                (units, units),
            ]
        }
        Err(_) => vec![(0, 0), (0, units), (units, 0), (1, 2), (units, units)],
    };
    rooms.sort_unstable();
    rooms.dedup();
    rooms
}

/// Holds the library's mended reading into so many cells to what it shall give,
/// cell by cell, those around the lent ones included.
///
/// It is asked twice, the second time with every bit of every cell turned
/// over: a cell that is written to is seen in one of the two.
pub fn fills<F: Linked + Drawn>(
    group: &mut Group,
    source: impl Display,
    text: &[F::Unit],
    expected: &Mended,
    values_room: usize,
    starts_room: usize,
) {
    let counts = given(expected, values_room, starts_room);
    let answer = JkDecoding::of(counts);
    let asked = || {
        format!(
            "{source}: mended reading of {}, into {values_room} and {starts_room} cells",
            named::<F>(text),
        )
    };
    let mut lent = Lent::<F>::text(text);
    for turned in [false, true] {
        let mut values = Lent::<Ucs4>::room(values_room, turned);
        let mut starts = Lent::<Ucs4>::room(starts_room, !turned);
        // SAFETY: the pointers are to `text.len()` lent units and to so many
        // lent cells.
        let came = unsafe {
            F::raw_decode_lossy(
                lent.pointer(),
                text.len(),
                values.pointer(),
                values_room,
                starts.pointer(),
                starts_room,
            )
        };
        group.check(came == answer, || {
            format!(
                "{}: expected {}, came {}",
                asked(),
                told_decoding(answer),
                told_decoding(came),
            )
        });
        if let (Ok(decoded), Ok(_)) = (expected, counts) {
            values.shall_begin(&decoded.values);
            starts.shall_begin(&decoded.starts);
        }
        group.check(values.holds(), || {
            format!("{}: of the values, {}", asked(), values.difference())
        });
        group.check(starts.holds(), || {
            format!("{}: of the starts, {}", asked(), starts.difference())
        });
        group.check(lent.holds(), || format!("{}, changed the text", asked()));
    }
}

/// A text with its form's name.
fn named<F: Form>(text: &[F::Unit]) -> String {
    format!("{} [{}]", F::NAME, hex::<F>(text))
}

fn told_mended(mended: &Mended) -> String {
    match mended {
        Ok(decoded) => told_items(&decoded.pairs()),
        Err(Refusal { fault, offset }) => format!("fault {fault} at {offset}"),
    }
}

/// Values with their starts; the middle of a long list is left out.
fn told_items(items: &[(u32, usize)]) -> String {
    const ENDS: usize = 20;
    let join = |items: &[(u32, usize)]| {
        let items: Vec<String> = items
            .iter()
            .map(|&(value, start)| match value {
                MARK_VALUE => format!("mark at {start}"),
                _ => format!("{value:X} at {start}"),
            })
            .collect();
        items.join(", ")
    };
    if items.len() <= 3 * ENDS {
        format!("({})", join(items))
    } else {
        format!(
            "({} .. {} items in all .. {})",
            join(&items[..ENDS]),
            items.len(),
            join(&items[items.len() - ENDS..]),
        )
    }
}
