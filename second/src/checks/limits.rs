//! The longest text, longer ones, and offsets far beyond.

use std::alloc::{alloc_zeroed, dealloc, Layout};
use std::ptr;

use super::each_form;
use crate::library::{JkItem, Linked};
use crate::random::{add_good, Drawn, Random};
use crate::reference::{FssUtf, Reading, UtfEbcdic, LONGEST_TEXT};
use crate::report::{told, Group};

pub fn check(group: &mut Group) {
    each_form!(empty(group));
    each_form!(far_offsets(group));
    each_form!(longest(group));
    each_form!(too_long(group));
    too_long_to_be_read_again(group);
    beyond_32_bits::<FssUtf>(group);
    beyond_32_bits::<UtfEbcdic>(group);
}

fn refusal(fault: u32, offset: usize) -> JkItem {
    JkItem::of(Reading::Refusal { fault, offset }, offset)
}

/// Offsets that a narrower number would take for small ones.
pub const FAR: [usize; 8] = [
    1 << 16,
    (1 << 16) + 1,
    (1 << 32) - 1,
    1 << 32,
    (1 << 32) + 1,
    1 << 63,
    usize::MAX - 1,
    usize::MAX,
];

fn empty<F: Linked>(group: &mut Group) {
    let end = JkItem::of(Reading::End, 0);
    group.answer::<F>(&[], 0, end, "empty text");
    for offset in [1, 2].into_iter().chain(FAR) {
        group.answer::<F>(&[], offset, refusal(9, offset), "empty text");
    }
    // A text of length 0 may come with any pointer.
    for pointer in [ptr::null(), ptr::without_provenance(1), ptr::dangling()] {
        for (offset, expected) in [(0, end), (1, refusal(9, 1))] {
            // SAFETY: the length is 0.
            let came = unsafe { F::raw_item_at(pointer, 0, offset) };
            group.check(came == expected, || {
                format!(
                    "{}: empty text at {pointer:?}, offset {offset}: expected {}, came {}",
                    F::NAME,
                    told(expected),
                    told(came),
                )
            });
        }
    }
}

fn far_offsets<F: Linked + Drawn>(group: &mut Group) {
    let mut random = Random::new(6);
    for length in 1..=8 {
        let text: Vec<F::Unit> = (0..length).map(|_| F::telling_unit(&mut random)).collect();
        for offset in FAR {
            group.answer::<F>(&text, offset, refusal(9, offset), "far offset");
        }
    }
}

/// Texts of exactly this many units: of units drawn at random, of characters,
/// and of one unit all through.
pub fn texts<F: Drawn>(length: usize) -> Vec<Vec<F::Unit>> {
    let mut random = Random::new(length as u64);
    let mut texts = vec![(0..length).map(|_| F::telling_unit(&mut random)).collect()];
    let mut good = Vec::new();
    add_good::<F>(&mut good, length, &mut random);
    // The last units are filled up with the form's first character.
    good.resize(length, F::unit(0));
    texts.push(good);
    for _ in 0..4 {
        texts.push(vec![F::telling_unit(&mut random); length]);
    }
    texts
}

fn longest<F: Linked + Drawn>(group: &mut Group) {
    for length in [LONGEST_TEXT - 1, LONGEST_TEXT] {
        for text in texts::<F>(length) {
            let asked = (0..10)
                .chain(length / 2 - 5..length / 2 + 5)
                .chain(length - 10..length);
            for offset in asked {
                group.agree::<F>(&text, offset, "longest text");
            }
            let end = JkItem::of(Reading::End, length);
            group.answer::<F>(&text, length, end, "longest text");
            for offset in [length + 1, length + 2].into_iter().chain(FAR) {
                if offset > length {
                    group.answer::<F>(&text, offset, refusal(9, offset), "longest text");
                }
            }
        }
    }
}

fn too_long<F: Linked + Drawn>(group: &mut Group) {
    // The last two would be short if lengths were cut to 16 bits.
    for length in [
        LONGEST_TEXT + 1,
        LONGEST_TEXT + 2,
        70_000,
        2 * LONGEST_TEXT,
        2 * LONGEST_TEXT + 1,
    ] {
        for text in texts::<F>(length) {
            let asked = [
                0,
                1,
                length / 2,
                LONGEST_TEXT - 1,
                LONGEST_TEXT,
                LONGEST_TEXT + 1,
            ];
            let ends = [length - 1, length, length + 1, length + 2];
            for offset in asked.into_iter().chain(ends).chain(FAR) {
                group.answer::<F>(&text, offset, refusal(1, 0), "text too long");
            }
        }
    }
}

/// "10,923 UCS-4 units of 7FFFFFFF give 65,538 FSS-UTF bytes, too many to be
/// read again"; one fewer is not.
fn too_long_to_be_read_again(group: &mut Group) {
    let character = [0xFD, 0xBF, 0xBF, 0xBF, 0xBF, 0xBF];
    let text = character.repeat(10_923);
    group.check(text.len() == 65_538, || format!("{} bytes", text.len()));
    group.answer::<FssUtf>(&text, 0, refusal(1, 0), "10,923 units of 7FFFFFFF");
    let text = character.repeat(10_922);
    for offset in 0..=text.len() + 1 {
        group.agree::<FssUtf>(&text, offset, "10,922 units of 7FFFFFFF");
    }
}

/// A text of more than 2^32 bytes: cut to 32 bits, its length would be short.
/// It is never read, so that its memory is reserved only.
fn beyond_32_bits<F: Linked<Unit = u8>>(group: &mut Group) {
    let length = (1 << 32) + 5;
    let layout = Layout::array::<u8>(length).expect("less than isize::MAX");
    // SAFETY: the layout is not empty.
    let text = unsafe { alloc_zeroed(layout) };
    if text.is_null() {
        group.note(format!(
            "{}: no room for a text of {length} bytes, which was not run",
            F::NAME
        ));
        return;
    }
    for offset in [0, 1, 5, length, length + 1, usize::MAX] {
        // SAFETY: the pointer is to `length` bytes.
        let came = unsafe { F::raw_item_at(text, length, offset) };
        group.check(came == refusal(1, 0), || {
            format!(
                "{}: {length} zero bytes at {offset}: expected fault 1, came {}",
                F::NAME,
                told(came)
            )
        });
    }
    // SAFETY: it was allocated with this layout.
    unsafe { dealloc(text, layout) };
}
