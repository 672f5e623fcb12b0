//! The papers' examples with the answer of each place written out, and the
//! longest item on both sides of its reach.

use super::{answer, differs, longest_character, three_ways};
use crate::checks::{character, each_form, mark, Told};
use crate::library::{JkItem, Linked};
use crate::random::Drawn;
use crate::reference::{item_covering, FssUtf, Ucs4, Utf16, UtfEbcdic};
use crate::report::{told, Group};

pub fn check(group: &mut Group) {
    fss_utf(group);
    utf_ebcdic(group);
    utf16(group);
    ucs4(group);
    each_form!(reach(group));
}

/// A character as C gets it, by the numbers of the interface.
fn given(value: u32, offset: u64, length: u64) -> JkItem {
    JkItem {
        kind: 1,
        fault: 0,
        value,
        offset,
        length,
    }
}

/// A mark as C gets it.
fn marked(fault: u32, offset: u64, length: u64) -> JkItem {
    JkItem {
        kind: 2,
        fault,
        value: 0,
        offset,
        length,
    }
}

/// Holds the answer from each unit of a text to the one written out, in the
/// reference and in the library. At the end and behind it there is none: 9.
fn point<F: Linked>(group: &mut Group, units: &[u32], answers: &[JkItem]) {
    let text: Vec<F::Unit> = units.iter().map(|&unit| F::unit(unit)).collect();
    group.check(answers.len() == text.len(), || {
        format!("{units:X?} has {} answers", answers.len())
    });
    for offset in 0..text.len() + 2 {
        let beyond = JkItem {
            kind: 3,
            fault: 9,
            value: 0,
            offset: offset as u64,
            length: 0,
        };
        let expected = answers.get(offset).copied().unwrap_or(beyond);
        answer::<F>(group, "point", &text, offset, expected);
        let reference = JkItem::found(item_covering::<F>(&text, offset));
        group.check(reference == expected, || {
            let came = format!("from the reference {}", told(reference));
            differs::<F>("point", &text, offset, expected, came)
        });
    }
}

fn fss_utf(group: &mut Group) {
    // The listing program's example.
    point::<FssUtf>(
        group,
        &[0x41, 0xC2, 0xA9, 0x80, 0xE2, 0x89, 0x0A],
        &[
            given(0x41, 0, 1),
            given(0xA9, 1, 2),
            given(0xA9, 1, 2),
            marked(3, 3, 1),
            marked(2, 4, 2),
            marked(2, 4, 2),
            given(0x0A, 6, 1),
        ],
    );
    point::<FssUtf>(
        group,
        &[0xE2, 0x89, 0x41],
        &[marked(2, 0, 2), marked(2, 0, 2), given(0x41, 2, 1)],
    );
    point::<FssUtf>(group, &[0xE2, 0x89, 0xA0], &[given(0x2260, 0, 3); 3]);
    point::<FssUtf>(group, &[0xC0, 0x80], &[marked(5, 0, 2); 2]);
    point::<FssUtf>(group, &[0xFE], &[marked(4, 0, 1)]);
    point::<FssUtf>(group, &[0xED, 0xA0, 0x80], &[marked(10, 0, 3); 3]);
    let too_long = [0xF0, 0x8D, 0xA0, 0x80];
    point::<FssUtf>(group, &too_long, &[marked(5, 0, 4); 4]);
    let highest = [0xFD, 0xBF, 0xBF, 0xBF, 0xBF, 0xBF];
    point::<FssUtf>(group, &highest, &[given(0x7FFF_FFFF, 0, 6); 6]);
    point::<FssUtf>(group, &[0xEF, 0xBF, 0xBE], &[given(0xFFFE, 0, 3); 3]);
    point::<FssUtf>(group, &[0xEF, 0xBF, 0xBF], &[given(0xFFFF, 0, 3); 3]);
}

fn utf_ebcdic(group: &mut Group) {
    point::<UtfEbcdic>(group, &[0xC1], &[given(0x41, 0, 1)]);
    point::<UtfEbcdic>(group, &[0x47, 0x80], &[given(0xA0, 0, 2); 2]);
    point::<UtfEbcdic>(group, &[0x9A, 0x80, 0x80], &[given(0x400, 0, 3); 3]);
    let four = [0xB2, 0xBF, 0x80, 0x80];
    point::<UtfEbcdic>(group, &four, &[given(0x4000, 0, 4); 4]);
    let highest = [0xE1, 0xFE, 0xFE, 0xFE, 0xFE, 0xFE, 0xFE];
    point::<UtfEbcdic>(group, &highest, &[given(0x7FFF_FFFF, 0, 7); 7]);
    for (last, value) in [(0xFD, 0xFFFE), (0xFE, 0xFFFF)] {
        let four = [0xB3, 0xFE, 0xFE, last];
        point::<UtfEbcdic>(group, &four, &[given(value, 0, 4); 4]);
    }
    point::<UtfEbcdic>(
        group,
        &[0x9A, 0x80, 0xC1, 0x80],
        &[
            marked(2, 0, 2),
            marked(2, 0, 2),
            given(0x41, 2, 1),
            marked(3, 3, 1),
        ],
    );
}

fn utf16(group: &mut Group) {
    point::<Utf16>(group, &[0xD800, 0xDC00], &[given(0x1_0000, 0, 2); 2]);
    point::<Utf16>(group, &[0xDC00], &[marked(3, 0, 1)]);
    point::<Utf16>(group, &[0xD800], &[marked(2, 0, 1)]);
    point::<Utf16>(
        group,
        &[0xFFFE, 0xFFFF],
        &[given(0xFFFE, 0, 1), given(0xFFFF, 1, 1)],
    );
    point::<Utf16>(
        group,
        &[0xD800, 0x0041],
        &[marked(2, 0, 1), given(0x41, 1, 1)],
    );
    point::<Utf16>(
        group,
        &[0xD800, 0xD800, 0xDC00, 0xDC00],
        &[
            marked(2, 0, 1),
            given(0x1_0000, 1, 2),
            given(0x1_0000, 1, 2),
            marked(3, 3, 1),
        ],
    );
}

fn ucs4(group: &mut Group) {
    point::<Ucs4>(group, &[0xD800], &[marked(10, 0, 1)]);
    point::<Ucs4>(group, &[0x8000_0000], &[marked(4, 0, 1)]);
    point::<Ucs4>(
        group,
        &[0xFFFE, 0xFFFF],
        &[given(0xFFFE, 0, 1), given(0xFFFF, 1, 1)],
    );
    point::<Ucs4>(
        group,
        &[0x7FFF_FFFF, 0xDFFF, 0xE000, 0xFFFF_FFFF],
        &[
            given(0x7FFF_FFFF, 0, 1),
            marked(10, 1, 1),
            given(0xE000, 2, 1),
            marked(4, 3, 1),
        ],
    );
}

/// The longest item of a form, where its reach ends with the text, one unit
/// behind the text's end and one unit before it; and where the last unit of
/// the reach is one that the item does not take.
fn reach<F: Linked + Drawn>(group: &mut Group) {
    let longest = F::LONGEST_ITEM;
    let (value, legal) = longest_character::<F>();
    group.check(legal.len() == longest, || {
        format!("{}: {value:X} has {} units", F::NAME, legal.len())
    });
    let whole = character(value, longest);
    let single = F::encode(0x41).expect("every form holds it")[0];
    // Units behind the item, and what each reads as there.
    let behind = match *legal {
        [lead, .., last] => [
            (single, character(0x41, 1)),
            (last, mark(3, 1)),
            (lead, mark(2, 1)),
        ],
        _ => [
            (single, character(0x41, 1)),
            (F::unit(0xD800), mark(10, 1)),
            (F::unit(0x8000_0000), mark(4, 1)),
        ],
    };
    let cut: &[Told] = match longest {
        1 => &[],
        _ => &[mark(2, longest - 1)],
    };

    let before: [(&[F::Unit], &[Told]); 3] = [
        (&[], &[]),
        (&[single], &[character(0x41, 1)]),
        (&legal, &[whole]),
    ];
    for (before, read_before) in before {
        let mut ends = |units: &[F::Unit], read: &[Told]| {
            let text = [before, units].concat();
            let told = [read_before, read].concat();
            three_ways::<F>(group, "both sides of the reach", &text, &told);
        };
        ends(&legal, &[whole]);
        ends(&legal[..longest - 1], cut);
        for (unit, read) in behind {
            ends(&[&legal[..], &[unit]].concat(), &[whole, read]);
            if unit != legal[longest - 1] {
                let taken = &legal[..longest - 1];
                ends(&[taken, &[unit]].concat(), &[cut, &[read]].concat());
            }
        }
    }
}
