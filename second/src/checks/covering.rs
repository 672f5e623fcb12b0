//! The finder of the item that covers a place.

pub mod limits;
pub mod locality;
pub mod points;
pub mod texts;

use std::fmt::Display;

use super::lent::Lent;
use super::Told;
use crate::library::{JkItem, Linked, CHARACTER, MARK};
use crate::random::Drawn;
use crate::reference::{item_covering, Encoding, Item, Refusal, HIGHEST_VALUE, MARK_VALUE};
use crate::report::{hex, told, Group};

fn refusal(fault: u32, offset: usize) -> JkItem {
    JkItem::found(Err(Refusal { fault, offset }))
}

/// The form's highest value with its legal encoding, which is as long as an
/// item can be. Where that is more than one unit, the first is a lead and the
/// last a trailing one.
fn longest_character<F: Drawn>() -> (u32, Encoding<F::Unit>) {
    [HIGHEST_VALUE, 0x10_FFFF]
        .into_iter()
        .find_map(|value| Some((value, F::encode(value)?)))
        .expect("every form holds one of them")
}

/// Holds the library's answer for one place of a text to what it shall be.
pub fn answer<F: Linked>(
    group: &mut Group,
    source: impl Display,
    text: &[F::Unit],
    offset: usize,
    expected: JkItem,
) {
    let came = F::item_covering(text, offset);
    group.check(came == expected, || {
        differs::<F>(source, text, offset, expected, told(came))
    });
}

fn differs<F: Linked>(
    source: impl Display,
    text: &[F::Unit],
    offset: usize,
    expected: JkItem,
    came: String,
) -> String {
    format!(
        "{source}: the item from {offset} of {} [{}]: expected {}, came {came}",
        F::NAME,
        hex::<F>(text),
        told(expected),
    )
}

/// Holds the items that a paper tells of a text to the reference's answers from
/// each of its units and to the library's.
pub fn three_ways<F: Linked + Drawn>(
    group: &mut Group,
    source: impl Display,
    text: &[F::Unit],
    told: &[Told],
) {
    let mut covering = Vec::new();
    for &(content, length) in told {
        let item = Item {
            start: covering.len(),
            length,
            content,
        };
        covering.extend((0..length).map(|_| item));
    }
    for offset in 0..=text.len() {
        let expected = given(&covering, offset);
        let reference = item_covering::<F>(text, offset);
        group.check(reference == expected, || {
            let came = format!("from the reference {reference:?}");
            differs::<F>(&source, text, offset, JkItem::found(expected), came)
        });
    }
    finds::<F>(group, source, text, &covering);
}

/// What shall be given for a place of a text whose units these items cover.
fn given(covering: &[Item], offset: usize) -> Result<Item, Refusal> {
    let item = covering.get(offset).copied();
    item.ok_or(Refusal { fault: 9, offset })
}

/// Holds the library's answers from each unit of a text to the items that they
/// shall be, and those at its end and beyond to fault 9.
fn finds<F: Linked + Drawn>(
    group: &mut Group,
    source: impl Display,
    text: &[F::Unit],
    covering: &[Item],
) {
    let mut lent = Lent::<F>::text(text);
    let pointer = lent.pointer();
    let mut found = Vec::with_capacity(text.len() + 4);
    for offset in (0..text.len() + 3).chain([usize::MAX]) {
        let expected = JkItem::found(given(covering, offset));
        // SAFETY: the pointer is to `text.len()` lent units.
        let came = unsafe { F::raw_item_covering(pointer, text.len(), offset) };
        group.check(came == expected, || {
            differs::<F>(&source, text, offset, expected, told(came))
        });
        found.push(came);
    }
    group.check(lent.holds(), || {
        format!(
            "{source}: {} [{}]: finding an item changed the text",
            F::NAME,
            hex::<F>(text)
        )
    });
    found.truncate(text.len());
    agrees::<F>(group, source, text, found);
}

/// "It must agree with the reading of the whole text": holds what the library
/// gave from each unit to its own reader and its own mended reading. The
/// reference is not asked.
fn agrees<F: Linked>(
    group: &mut Group,
    source: impl Display,
    text: &[F::Unit],
    found: Vec<JkItem>,
) {
    let named = || format!("{source}: {} [{}]", F::NAME, hex::<F>(text));

    // The item covers the asked unit. "It lies at most one less than that
    // number back."
    let elsewhere = (0_u64..).zip(&found).find(|&(offset, item)| {
        let distance = offset.checked_sub(item.offset);
        distance.is_none_or(|distance| distance >= item.length)
            || item.length > F::LONGEST_ITEM as u64
    });
    group.check(elsewhere.is_none(), || {
        let (offset, &item) = elsewhere.expect("there is one");
        format!("{}: {offset} is not in {}", named(), told(item))
    });

    // Each unit of an item gives the same answer, so that each item is left
    // once, and each ends where the next one starts.
    let mut items = found;
    items.dedup();
    let ends = [0].into_iter().chain(
        items
            .iter()
            .map(|item| item.offset.saturating_add(item.length)),
    );
    let starts = items.iter().map(|item| item.offset);
    let joined = ends.eq(starts.chain([text.len() as u64]));
    group.check(joined, || {
        format!(
            "{}: the items found do not join: {}",
            named(),
            told_all(&items)
        )
    });

    let unlike = items
        .iter()
        .map(|&item| (item, F::item_at(text, item.offset as usize)))
        .find(|(item, read)| item != read);
    group.check(unlike.is_none(), || {
        let (item, read) = unlike.expect("there is one");
        format!("{}: found {}, but read {}", named(), told(item), told(read))
    });

    let mut values = vec![0; text.len()];
    let mut starts = vec![0; text.len()];
    let decoding = F::decode_lossy(text, &mut values, &mut starts);
    let mended = values.iter().copied().zip(starts.iter().copied());
    let values_and_starts = items.iter().map(|item| {
        let value = match item.kind {
            CHARACTER => item.value,
            _ => MARK_VALUE,
        };
        (value, item.offset as u32)
    });
    let same = values_and_starts.eq(mended.take(decoding.items as usize));
    let marks = items.iter().filter(|item| item.kind == MARK).count();
    group.check(same && decoding.marks == marks as u64, || {
        format!(
            "{}: found {}, but the mended reading has the values {values:X?} from {starts:?}",
            named(),
            told_all(&items),
        )
    });
}

/// The first of the items in words.
fn told_all(items: &[JkItem]) -> String {
    let shown: Vec<String> = items.iter().take(20).map(|&item| told(item)).collect();
    format!("{} items, {}", items.len(), shown.join("; "))
}

#[cfg(test)]
mod tests {
    use super::*;
    use crate::reference::FssUtf;

    /// The listing program's example.
    const TEXT: [u8; 7] = [0x41, 0xC2, 0xA9, 0x80, 0xE2, 0x89, 0x0A];

    fn found() -> Vec<JkItem> {
        (0..TEXT.len())
            .map(|offset| FssUtf::item_covering(&TEXT, offset))
            .collect()
    }

    fn failures(found: Vec<JkItem>) -> Vec<String> {
        let mut group = Group::default();
        agrees::<FssUtf>(&mut group, "test", &TEXT, found);
        group.shown().to_vec()
    }

    #[test]
    fn right_items_pass() {
        assert_eq!(failures(found()), Vec::<String>::new());
    }

    /// A wrong answer is seen, from one unit of its item or from all of them.
    #[test]
    fn each_wrong_answer_is_seen() {
        let changes: [fn(&mut JkItem); 7] = [
            |item| item.kind = 3 - item.kind,
            |item| item.kind = 3,
            |item| item.fault += 1,
            |item| item.value += 1,
            |item| item.offset += 1,
            |item| item.length += 1,
            |item| item.length -= 1,
        ];
        let right = found();
        for (number, change) in changes.into_iter().enumerate() {
            for unit in 0..TEXT.len() {
                let mut wrong = right.clone();
                change(&mut wrong[unit]);
                assert!(!failures(wrong).is_empty(), "change {number} at {unit}");
                let mut wrong = right.clone();
                let same = wrong.iter_mut().filter(|item| **item == right[unit]);
                same.for_each(change);
                assert!(!failures(wrong).is_empty(), "change {number} around {unit}");
            }
        }
    }

    /// The same items, but one unit is told to lie under the next.
    #[test]
    fn another_item_is_seen() {
        let mut wrong = found();
        wrong[2] = wrong[3];
        assert_eq!(failures(wrong).len(), 1);
    }
}
