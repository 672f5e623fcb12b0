//! The mended reading of a whole text.

use super::{items, Content, Form, Refusal, LONGEST_TEXT};

/// What the mended reading gives as the value of a mark.
pub const MARK_VALUE: u32 = 0xFFFF_FFFF;

/// A value and a start for each item, in order.
#[derive(Clone, Debug, Default, PartialEq, Eq)]
pub struct Decoded {
    pub values: Vec<u32>,
    pub starts: Vec<u32>,
}

impl Decoded {
    pub fn add(&mut self, content: Content, start: usize) {
        self.values.push(match content {
            Content::Character(value) => value,
            Content::Mark(_) => MARK_VALUE,
        });
        self.starts.push(start as u32);
    }

    /// Each value with its start.
    pub fn pairs(&self) -> Vec<(u32, usize)> {
        let starts = self.starts.iter().map(|&start| start as usize);
        self.values.iter().copied().zip(starts).collect()
    }

    pub fn items(&self) -> usize {
        self.values.len()
    }

    pub fn marks(&self) -> usize {
        self.values
            .iter()
            .filter(|&&value| value == MARK_VALUE)
            .count()
    }
}

/// What a text gives, where the room is not short.
pub type Mended = Result<Decoded, Refusal>;

/// The items of a text that is not too long; no mark refuses it.
pub fn decode_lossy<F: Form>(text: &[F::Unit]) -> Mended {
    if text.len() > LONGEST_TEXT {
        return Err(Refusal {
            fault: 1,
            offset: 0,
        });
    }
    let mut decoded = Decoded::default();
    for item in items::<F>(text) {
        decoded.add(item.content, item.start);
    }
    Ok(decoded)
}

/// The items and marks given into so many cells for values and for starts:
/// fault 7, after fault 1, where either are fewer than the items.
pub fn given(
    mended: &Mended,
    values_room: usize,
    starts_room: usize,
) -> Result<(usize, usize), Refusal> {
    match mended {
        Err(refusal) => Err(*refusal),
        Ok(decoded) if values_room < decoded.items() || starts_room < decoded.items() => {
            Err(Refusal {
                fault: 7,
                offset: 0,
            })
        }
        Ok(decoded) => Ok((decoded.items(), decoded.marks())),
    }
}
