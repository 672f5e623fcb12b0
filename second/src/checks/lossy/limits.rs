//! The longest text and longer ones, the empty one, and numbers of cells that a
//! narrower number would take for less.

use std::ptr;

use super::{decodes, fills, three_ways};
use crate::checks::each_form;
use crate::checks::limits::texts;
use crate::checks::reserved::Reserved;
use crate::library::{JkDecoding, Linked};
use crate::random::{damage, Drawn, Random};
use crate::reference::{decode_lossy, Decoded, FssUtf, Mended, Refusal, UtfEbcdic, LONGEST_TEXT};
use crate::report::{told_decoding, Group};

pub fn check(group: &mut Group) {
    each_form!(empty(group));
    each_form!(longest(group));
    each_form!(too_long(group));
    each_form!(much_room(group));
    texts_beyond_32_bits(group);
    each_form!(room_beyond_32_bits(group));
}

const TOO_LONG: Mended = Err(Refusal {
    fault: 1,
    offset: 0,
});

/// "A text of length 0 may come with any pointer"; a buffer without cells
/// comes with one that points nowhere.
fn empty<F: Linked + Drawn>(group: &mut Group) {
    three_ways::<F>(group, "the empty text", &[], &[]);

    let nothing = JkDecoding::of(Ok((0, 0)));
    for pointer in [ptr::null(), ptr::without_provenance(1), ptr::dangling()] {
        let before = [0x5A5A_5A5A_u32; 3];
        let mut values = before;
        let mut starts = before;
        let none: *mut u32 = ptr::dangling_mut();
        // SAFETY: the text's length is 0, and each buffer's is 0 or that of an
        // array.
        let answers = unsafe {
            let (values, starts) = (values.as_mut_ptr(), starts.as_mut_ptr());
            [
                F::raw_decode_lossy(pointer, 0, none, 0, none, 0),
                F::raw_decode_lossy(pointer, 0, values, 3, none, 0),
                F::raw_decode_lossy(pointer, 0, none, 0, starts, 3),
                F::raw_decode_lossy(pointer, 0, values, 3, starts, 3),
            ]
        };
        group.check(answers == [nothing; 4], || {
            format!(
                "the empty text at {pointer:?}, {}: came {}",
                F::NAME,
                answers.map(told_decoding).join("; "),
            )
        });
        group.check(values == before && starts == before, || {
            format!(
                "the empty text at {pointer:?}, {}: left {values:X?} and {starts:X?}",
                F::NAME
            )
        });
    }
}

/// Texts of exactly so many units, and one that is damaged all along.
fn texts_and_damaged<F: Drawn>(length: usize) -> Vec<Vec<F::Unit>> {
    let mut texts = texts::<F>(length);
    let mut random = Random::new(0xE00 + length as u64);
    // The second is one of characters.
    let mut damaged = Vec::new();
    for stretch in texts[1].chunks(40) {
        let mut stretch = stretch.to_vec();
        damage::<F>(&mut stretch, &mut random);
        damaged.extend(stretch);
    }
    damaged.resize_with(length, || F::telling_unit(&mut random));
    texts.push(damaged);
    texts
}

/// "A source of 65,536 units is taken."
fn longest<F: Linked + Drawn>(group: &mut Group) {
    for length in [LONGEST_TEXT - 1, LONGEST_TEXT] {
        for text in texts_and_damaged::<F>(length) {
            let expected = decode_lossy::<F>(&text);
            group.check(text.len() == length && expected.is_ok(), || {
                format!("{}: the reference refuses {length} units", F::NAME)
            });
            decodes::<F>(group, "longest text", &text, &expected);
        }
    }
}

/// "65,537 gives 1", before 7.
fn too_long<F: Linked + Drawn>(group: &mut Group) {
    // The last two would be short if lengths were cut to 16 bits.
    for length in [
        LONGEST_TEXT + 1,
        LONGEST_TEXT + 2,
        70_000,
        2 * LONGEST_TEXT,
        2 * LONGEST_TEXT + 1,
    ] {
        for text in texts_and_damaged::<F>(length) {
            let reference = decode_lossy::<F>(&text);
            group.check(text.len() == length && reference == TOO_LONG, || {
                format!("{}: the reference takes {length} units", F::NAME)
            });
            decodes::<F>(group, "text too long", &text, &TOO_LONG);
        }
    }
}

/// Cells of which 16 bits alone would be few.
fn much_room<F: Linked + Drawn>(group: &mut Group) {
    for length in [1, 20] {
        for text in texts::<F>(length) {
            let expected = decode_lossy::<F>(&text);
            let items = expected.as_ref().map_or(0, Decoded::items);
            for room in [0xFFFF, 0x1_0000, 0x1_0001, 0x2_0000] {
                for (values_room, starts_room) in [
                    (room, items),
                    (items, room),
                    (room, room),
                    (room, items - 1),
                    (items - 1, room),
                ] {
                    let source = "much room";
                    fills::<F>(group, source, &text, &expected, values_room, starts_room);
                }
            }
        }
    }
}

/// A text of more than 2^32 bytes is too long in any room.
fn texts_beyond_32_bits(group: &mut Group) {
    let Some(text) = Reserved::<u8>::reserve(group, "a text too long") else {
        return;
    };
    refused_whole::<FssUtf>(group, &text);
    refused_whole::<UtfEbcdic>(group, &text);
}

fn refused_whole<F: Linked<Unit = u8>>(group: &mut Group, text: &Reserved<u8>) {
    let expected = JkDecoding::of(Err(Refusal {
        fault: 1,
        offset: 0,
    }));
    let before = [0x5A5A_5A5A_u32; 20];
    for room in [0, before.len()] {
        let mut values = before;
        let mut starts = before;
        // SAFETY: the pointers are to so many bytes and to at least `room`
        // cells each.
        let came = unsafe {
            F::raw_decode_lossy(
                text.pointer,
                Reserved::<u8>::COUNT,
                values.as_mut_ptr(),
                room,
                starts.as_mut_ptr(),
                room,
            )
        };
        group.check(came == expected, || {
            format!(
                "mended reading of {} zero bytes of {}: expected fault 1, came {}",
                Reserved::<u8>::COUNT,
                F::NAME,
                told_decoding(came),
            )
        });
        group.check(values == before && starts == before, || {
            format!(
                "{}: a text too long left {values:X?} and {starts:X?}",
                F::NAME
            )
        });
    }
}

/// A buffer of more than 2^32 cells has room for ten values or ten starts.
fn room_beyond_32_bits<F: Linked>(group: &mut Group) {
    let legal = F::encode(0x2260).expect("every form holds it");
    let text = legal.repeat(10);
    // A call that fills the rest of a buffer would ask the machine for all of
    // its memory.
    let mut rests = [[0x5A5A_5A5A_u32; 100]; 2];
    let [values, starts] = &mut rests;
    F::decode_lossy(&text, values, starts);
    let untouched = rests.iter().all(|cells| cells[10..] == [0x5A5A_5A5A; 90]);
    group.check(untouched, || {
        format!("{}: the rest is filled: {rests:X?}", F::NAME)
    });
    if !untouched {
        return;
    }
    let Some(cells) = Reserved::<u32>::reserve(group, "a large result buffer") else {
        return;
    };
    let values = [0x2260_u32; 10];
    let starts: [u32; 10] = std::array::from_fn(|item| (item * legal.len()) as u32);
    let much = Reserved::<u32>::COUNT;
    let expected = JkDecoding::of(Ok((10, 0)));

    let mut few = [0; 10];
    // SAFETY: the pointers are to so many units and cells.
    let came = unsafe {
        let (pointer, few) = (text.as_ptr(), few.as_mut_ptr());
        F::raw_decode_lossy(pointer, text.len(), cells.pointer, much, few, 10)
    };
    // SAFETY: there are more cells than these.
    let many = unsafe { std::slice::from_raw_parts(cells.pointer, 10) };
    group.check(came == expected && *many == values && few == starts, || {
        format!(
            "{}: {much} cells for values: came {}",
            F::NAME,
            told_decoding(came)
        )
    });

    let mut few = [0; 10];
    // SAFETY: the pointers are to so many units and cells.
    let came = unsafe {
        let (pointer, few) = (text.as_ptr(), few.as_mut_ptr());
        F::raw_decode_lossy(pointer, text.len(), few, 10, cells.pointer, much)
    };
    // SAFETY: there are more cells than these.
    let many = unsafe { std::slice::from_raw_parts(cells.pointer, 10) };
    group.check(came == expected && *many == starts && few == values, || {
        format!(
            "{}: {much} cells for starts: came {}",
            F::NAME,
            told_decoding(came)
        )
    });
}
