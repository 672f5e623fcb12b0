//! The longest text, longer ones, the empty one, and places far beyond.

use std::ptr;

use super::{answer, finds, longest_character, refusal, three_ways};
use crate::checks::each_form;
use crate::checks::limits::{texts, FAR};
use crate::checks::reserved::Reserved;
use crate::library::{JkItem, Linked};
use crate::random::{Drawn, Random};
use crate::reference::{
    item_covering, items_of_units, Content, FssUtf, Item, UtfEbcdic, LONGEST_TEXT,
};
use crate::report::{told, Group};

pub fn check(group: &mut Group) {
    each_form!(empty(group));
    each_form!(far_places(group));
    each_form!(longest(group));
    each_form!(last_item(group));
    each_form!(too_long(group));
    let Some(text) = Reserved::<u8>::reserve(group, "a text too long") else {
        return;
    };
    beyond_32_bits::<FssUtf>(group, &text);
    beyond_32_bits::<UtfEbcdic>(group, &text);
}

/// "The start finder may not" be asked at the end itself, so that the empty
/// text has no place to ask for. It may come with any pointer.
fn empty<F: Linked + Drawn>(group: &mut Group) {
    three_ways::<F>(group, "the empty text", &[], &[]);
    for offset in [0, 1, 2].into_iter().chain(FAR) {
        answer::<F>(group, "the empty text", &[], offset, refusal(9, offset));
        let reference = JkItem::found(item_covering::<F>(&[], offset));
        group.check(reference == refusal(9, offset), || {
            format!("the empty text: the reference has {reference:?}")
        });
        for pointer in [ptr::null(), ptr::without_provenance(1), ptr::dangling()] {
            // SAFETY: the length is 0.
            let came = unsafe { F::raw_item_covering(pointer, 0, offset) };
            group.check(came == refusal(9, offset), || {
                format!(
                    "{}: the item from {offset} of the empty text at {pointer:?}: came {}",
                    F::NAME,
                    told(came),
                )
            });
        }
    }
}

fn far_places<F: Linked + Drawn>(group: &mut Group) {
    let mut random = Random::new(0xF30);
    for length in 1..=8 {
        let text: Vec<F::Unit> = (0..length).map(|_| F::telling_unit(&mut random)).collect();
        for offset in [length, length + 1].into_iter().chain(FAR) {
            answer::<F>(group, "far place", &text, offset, refusal(9, offset));
        }
    }
}

/// "A source of 65,536 units is taken."
fn longest<F: Linked + Drawn>(group: &mut Group) {
    for length in [LONGEST_TEXT - 1, LONGEST_TEXT] {
        for text in texts::<F>(length) {
            let covering = items_of_units::<F>(&text);
            finds::<F>(group, "longest text", &text, &covering);
            for offset in FAR.into_iter().filter(|&offset| offset >= length) {
                answer::<F>(group, "longest text", &text, offset, refusal(9, offset));
            }
        }
    }
}

/// The longest item at the end of the longest text, whole and cut short to any
/// number of units. One unit more than the text may have does not complete it.
fn last_item<F: Linked + Drawn>(group: &mut Group) {
    let single = F::encode(0x41).expect("every form holds it")[0];
    let (value, legal) = longest_character::<F>();
    for length in 1..=legal.len() {
        let start = LONGEST_TEXT - length;
        let mut text = vec![single; start];
        text.extend_from_slice(&legal[..length]);
        let item = JkItem::found(Ok(Item {
            start,
            length,
            content: match length == legal.len() {
                true => Content::Character(value),
                false => Content::Mark(2),
            },
        }));
        let before = JkItem::found(Ok(Item {
            start: start - 1,
            length: 1,
            content: Content::Character(0x41),
        }));
        answer::<F>(group, "last item", &text, start - 1, before);
        for offset in start..LONGEST_TEXT {
            answer::<F>(group, "last item", &text, offset, item);
        }
        let end = refusal(9, LONGEST_TEXT);
        answer::<F>(group, "last item", &text, LONGEST_TEXT, end);
        text.extend(legal.get(length));
        text.resize(LONGEST_TEXT + 1, single);
        for offset in start - 1..=LONGEST_TEXT + 1 {
            answer::<F>(group, "last item", &text, offset, refusal(1, 0));
        }
    }
}

/// "65,537 gives 1", before 9.
fn too_long<F: Linked + Drawn>(group: &mut Group) {
    // The last two would be short if lengths were cut to 16 bits.
    for length in [
        LONGEST_TEXT + 1,
        LONGEST_TEXT + 2,
        70_000,
        2 * LONGEST_TEXT,
        2 * LONGEST_TEXT + 1,
    ] {
        for text in texts::<F>(length) {
            let asked = [0, 1, length / 2, LONGEST_TEXT - 1, LONGEST_TEXT];
            let ends = [length - 1, length, length + 1, length + 2];
            for offset in asked.into_iter().chain(ends).chain(FAR) {
                answer::<F>(group, "text too long", &text, offset, refusal(1, 0));
                let reference = JkItem::found(item_covering::<F>(&text, offset));
                group.check(reference == refusal(1, 0), || {
                    format!("text too long: the reference has {reference:?}")
                });
            }
        }
    }
}

/// A text of more than 2^32 bytes is too long wherever it is asked.
fn beyond_32_bits<F: Linked<Unit = u8>>(group: &mut Group, text: &Reserved<u8>) {
    let length = Reserved::<u8>::COUNT;
    for offset in [0, 1, 5, length - 1, length, usize::MAX] {
        // SAFETY: the pointer is to so many bytes.
        let came = unsafe { F::raw_item_covering(text.pointer, length, offset) };
        group.check(came == refusal(1, 0), || {
            format!(
                "{}: the item from {offset} of {length} zero bytes: expected fault 1, came {}",
                F::NAME,
                told(came)
            )
        });
    }
}
