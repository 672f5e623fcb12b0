//! The finder of the item that covers a place.

use super::{items, Form, Item, Refusal, LONGEST_TEXT};

/// For each unit of a text, the item that covers it.
pub fn items_of_units<F: Form>(text: &[F::Unit]) -> Vec<Item> {
    let mut covering = Vec::new();
    for item in items::<F>(text) {
        covering.extend((0..item.length).map(|_| item));
    }
    covering
}

/// The item, in the reading of the whole text, that covers the asked place.
/// "The start finder may not" be asked at the end, where there is none.
pub fn item_covering<F: Form>(text: &[F::Unit], offset: usize) -> Result<Item, Refusal> {
    if text.len() > LONGEST_TEXT {
        return Err(Refusal {
            fault: 1,
            offset: 0,
        });
    }
    items::<F>(text)
        .into_iter()
        .find(|item| (item.start..item.start + item.length).contains(&offset))
        .ok_or(Refusal { fault: 9, offset })
}
