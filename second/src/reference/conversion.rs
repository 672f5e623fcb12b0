//! Strict conversion and its measure, with the faults in document 01's order.

use super::{items, Content, Form, LONGEST_TEXT};

/// Why a whole text is refused, and where.
#[derive(Clone, Copy, Debug, PartialEq, Eq)]
pub struct Refusal {
    pub fault: u32,
    pub offset: usize,
}

/// Request 110: "FFFE and FFFF turned away" by strict conversion and its
/// measure. They are characters all the same: reading gives them.
pub fn is_turned_away(value: u32) -> bool {
    value == 0xFFFE || value == 0xFFFF
}

/// What a text gives in the form `G`, where the room is not short.
pub type Converted<G> = Result<Vec<<G as Form>::Unit>, Refusal>;

/// A text in another form: fault 1 first, then the first item that is a mark,
/// a character that is turned away, or one that the target cannot hold.
pub fn convert<F: Form, G: Form>(text: &[F::Unit]) -> Converted<G> {
    if text.len() > LONGEST_TEXT {
        return Err(Refusal {
            fault: 1,
            offset: 0,
        });
    }
    let mut result = Vec::new();
    for item in items::<F>(text) {
        let refusal = |fault| Refusal {
            fault,
            offset: item.start,
        };
        match item.content {
            Content::Mark(fault) => return Err(refusal(fault)),
            Content::Character(value) if is_turned_away(value) => return Err(refusal(12)),
            Content::Character(value) => {
                let legal = G::encode(value).ok_or(refusal(6))?;
                result.extend_from_slice(&legal);
            }
        }
    }
    Ok(result)
}

/// The units written into so many cells: fault 7, the last in order, where
/// the whole result has more.
pub fn written<G: Form>(converted: &Converted<G>, room: usize) -> Result<usize, Refusal> {
    match converted {
        Err(refusal) => Err(*refusal),
        Ok(result) if result.len() > room => Err(Refusal {
            fault: 7,
            offset: 0,
        }),
        Ok(result) => Ok(result.len()),
    }
}

/// The section "Room": the most units that an accepted text of `n` units has
/// in the form `G`.
pub fn most_units<F: Form, G: Form>(n: usize) -> usize {
    match (F::NAME, G::NAME) {
        ("FSS-UTF", "UTF-EBCDIC") => 3 * n / 2,
        ("UTF-EBCDIC", "FSS-UTF") => 2 * n,
        ("UTF-16", "FSS-UTF") => 3 * n,
        ("UTF-16", "UTF-EBCDIC") => 4 * n,
        ("UTF-16", "UCS-4") => n,
        ("UCS-4", "FSS-UTF") => 6 * n,
        ("UCS-4", "UTF-EBCDIC") => 7 * n,
        ("UCS-4", "UTF-16") => 2 * n,
        ("FSS-UTF" | "UTF-EBCDIC", "UTF-16" | "UCS-4") => n,
        (from, to) => panic!("{from} to {to} is no pair of document 01"),
    }
}
