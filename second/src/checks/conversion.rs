//! Strict conversion and its measure, for the twelve pairs of forms.

pub mod faults;
pub mod limits;
pub mod points;
pub mod room;
pub mod texts;
pub mod values;

use std::fmt::Display;

use super::lent::Lent;
use super::Told;
use crate::library::{JkConversion, Linked, LinkedTo};
use crate::random::Drawn;
use crate::reference::{
    convert, most_units, written, Content, Converted, Form, FssUtf, Refusal, Ucs4, Utf16,
    UtfEbcdic, LONGEST_TEXT,
};
use crate::report::{hex, told_conversion, Group};

/// Runs a group's generic part for each of the twelve pairs.
macro_rules! each_pair {
    ($part:ident($($argument:expr),*)) => {{
        use crate::reference::{FssUtf, Ucs4, Utf16, UtfEbcdic};
        $part::<FssUtf, UtfEbcdic>($($argument),*);
        $part::<FssUtf, Utf16>($($argument),*);
        $part::<FssUtf, Ucs4>($($argument),*);
        $part::<UtfEbcdic, FssUtf>($($argument),*);
        $part::<UtfEbcdic, Utf16>($($argument),*);
        $part::<UtfEbcdic, Ucs4>($($argument),*);
        $part::<Utf16, FssUtf>($($argument),*);
        $part::<Utf16, UtfEbcdic>($($argument),*);
        $part::<Utf16, Ucs4>($($argument),*);
        $part::<Ucs4, FssUtf>($($argument),*);
        $part::<Ucs4, UtfEbcdic>($($argument),*);
        $part::<Ucs4, Utf16>($($argument),*);
    }};
}
pub(crate) use each_pair;

/// A form with its conversions to the three others.
pub trait ToOthers: Linked + Drawn {
    /// Holds a text's conversions to the items that a paper tells of it.
    fn to_others(group: &mut Group, source: &dyn Display, text: &[Self::Unit], told: &[Told]);
}

macro_rules! to_others {
    ($from:ty, $($to:ty),*) => {
        impl ToOthers for $from {
            fn to_others(
                group: &mut Group,
                source: &dyn Display,
                text: &[Self::Unit],
                told: &[Told],
            ) {
                $(three_ways::<$from, $to>(group, source, text, &of_items::<$to>(told));)*
            }
        }
    };
}

to_others!(FssUtf, UtfEbcdic, Utf16, Ucs4);
to_others!(UtfEbcdic, FssUtf, Utf16, Ucs4);
to_others!(Utf16, FssUtf, UtfEbcdic, Ucs4);
to_others!(Ucs4, FssUtf, UtfEbcdic, Utf16);

/// What a text with these items gives in the form `G`.
fn of_items<G: Form>(told: &[Told]) -> Converted<G> {
    let mut result = Vec::new();
    let mut offset = 0;
    for &(content, length) in told {
        let legal = match content {
            Content::Mark(fault) => Err(fault),
            // Request 110, in numbers of its own: the reference is held to it.
            Content::Character(0xFFFE | 0xFFFF) => Err(12),
            Content::Character(value) => G::encode(value).ok_or(6),
        };
        result.extend_from_slice(&legal.map_err(|fault| Refusal { fault, offset })?);
        offset += length;
    }
    Ok(result)
}

/// Holds what a text shall give in the form `G` to the reference's conversion
/// and to the library's.
pub fn three_ways<F: LinkedTo<G> + Drawn, G: LinkedTo<F>>(
    group: &mut Group,
    source: impl Display,
    text: &[F::Unit],
    expected: &Converted<G>,
) {
    reference_gives::<F, G>(group, &source, text, expected);
    converts::<F, G>(group, source, text, expected);
}

/// Holds the reference's conversion of a text to what it shall give.
pub fn reference_gives<F: Form, G: Form>(
    group: &mut Group,
    source: impl Display,
    text: &[F::Unit],
    expected: &Converted<G>,
) {
    let reference = convert::<F, G>(text);
    group.check(reference == *expected, || {
        format!(
            "{source}: {}: expected {}, the reference has {}",
            pair::<F, G>(text),
            told_result::<G>(expected),
            told_result::<G>(&reference),
        )
    });
}

/// `converts` with what the reference gives.
pub fn agree<F: LinkedTo<G> + Drawn, G: LinkedTo<F>>(
    group: &mut Group,
    source: impl Display,
    text: &[F::Unit],
) {
    converts::<F, G>(group, source, text, &convert::<F, G>(text));
}

/// Holds the library's conversion of a text to what it shall give: the
/// measure, every room of `rooms`, the bound of the section "Room", and the
/// way back.
pub fn converts<F: LinkedTo<G> + Drawn, G: LinkedTo<F>>(
    group: &mut Group,
    source: impl Display,
    text: &[F::Unit],
    expected: &Converted<G>,
) {
    measures::<F, G>(group, &source, text, expected);
    for room in rooms::<F, G>(text, expected) {
        fills::<F, G>(group, &source, text, expected, room);
    }
    if let Ok(result) = expected {
        let most = most_units::<F, G>(text.len());
        group.check(result.len() <= most, || {
            format!(
                "{source}: {} has {} units, more than the {most} of the section Room",
                pair::<F, G>(text),
                result.len(),
            )
        });
        back::<F, G>(group, source, text, result);
    }
}

/// Holds the library's measure of a text to what it shall give.
pub fn measures<F: LinkedTo<G> + Drawn, G: Form>(
    group: &mut Group,
    source: impl Display,
    text: &[F::Unit],
    expected: &Converted<G>,
) {
    let mut lent = Lent::<F>::text(text);
    // SAFETY: the pointer is to `text.len()` lent units.
    let came = unsafe { F::raw_measure(lent.pointer(), text.len()) };
    let answer = JkConversion::of(written::<G>(expected, usize::MAX));
    group.check(came == answer, || {
        format!(
            "{source}: measure of {}: expected {}, came {}",
            pair::<F, G>(text),
            told_conversion(answer),
            told_conversion(came),
        )
    });
    group.check(lent.holds(), || {
        format!("{source}: measure of {} changed it", pair::<F, G>(text))
    });
}

/// The room for a result: none, half of what it needs, one cell too few, just
/// enough, and more. A text that is refused is so in any room.
fn rooms<F: Form, G: Form>(text: &[F::Unit], expected: &Converted<G>) -> Vec<usize> {
    let most = most_units::<F, G>(text.len());
    let mut rooms = match expected {
        Ok(result) => {
            let units = result.len();
            vec![
                0,
                units / 2,
                units.saturating_sub(1),
                units,
                units + 1,
                units + 5,
                most,
            ]
        }
        Err(_) => vec![0, 1, text.len(), most],
    };
    rooms.sort_unstable();
    rooms.dedup();
    rooms
}

/// Holds the library's conversion into so many cells to what it shall give,
/// cell by cell, those around the lent ones included.
///
/// It is asked twice, the second time with every bit of every cell turned
/// over: a cell that is written to is seen in one of the two.
pub fn fills<F: LinkedTo<G> + Drawn, G: Form>(
    group: &mut Group,
    source: impl Display,
    text: &[F::Unit],
    expected: &Converted<G>,
    room: usize,
) {
    let units = written::<G>(expected, room);
    let answer = JkConversion::of(units);
    let mut lent = Lent::<F>::text(text);
    for turned in [false, true] {
        let mut cells = Lent::<G>::room(room, turned);
        // SAFETY: the pointers are to `text.len()` lent units and to `room`
        // lent cells.
        let came = unsafe { F::raw_convert(lent.pointer(), text.len(), cells.pointer(), room) };
        group.check(came == answer, || {
            format!(
                "{source}: {}, into {room} cells: expected {}, came {}",
                pair::<F, G>(text),
                told_conversion(answer),
                told_conversion(came),
            )
        });
        if let (Ok(result), Ok(_)) = (expected, units) {
            cells.shall_begin(result);
        }
        group.check(cells.holds(), || {
            format!(
                "{source}: {}, into {room} cells: {}",
                pair::<F, G>(text),
                cells.difference(),
            )
        });
        group.check(lent.holds(), || {
            format!(
                "{source}: {}, into {room} cells, changed the text",
                pair::<F, G>(text)
            )
        });
    }
}

/// "An accepted text converted to another form and back is the same text, where
/// the result is short enough to be read again and the room suffices."
fn back<F: Form, G: LinkedTo<F>>(
    group: &mut Group,
    source: impl Display,
    text: &[F::Unit],
    result: &[G::Unit],
) {
    let expected = if result.len() > LONGEST_TEXT {
        JkConversion::of(Err(Refusal {
            fault: 1,
            offset: 0,
        }))
    } else {
        JkConversion::of(Ok(text.len()))
    };
    let mut again = Lent::<F>::room(text.len(), false);
    // SAFETY: the pointers are to a slice and to `text.len()` lent cells.
    let came =
        unsafe { G::raw_convert(result.as_ptr(), result.len(), again.pointer(), text.len()) };
    let measured = G::measure(result);
    group.check(came == expected && measured == expected, || {
        format!(
            "{source}: back from {}: expected {}, came {} and measured {}",
            pair::<G, F>(result),
            told_conversion(expected),
            told_conversion(came),
            told_conversion(measured),
        )
    });
    if expected.fault == 0 {
        again.shall_begin(text);
    }
    group.check(again.holds(), || {
        format!(
            "{source}: back from {}: {}",
            pair::<G, F>(result),
            again.difference(),
        )
    });
}

/// A text with the names of its form and of the form asked for.
fn pair<F: Form, G: Form>(text: &[F::Unit]) -> String {
    format!("{} [{}] to {}", F::NAME, hex::<F>(text), G::NAME)
}

fn told_result<G: Form>(converted: &Converted<G>) -> String {
    match converted {
        Ok(result) => format!("[{}]", hex::<G>(result)),
        Err(Refusal { fault, offset }) => format!("fault {fault} at {offset}"),
    }
}
