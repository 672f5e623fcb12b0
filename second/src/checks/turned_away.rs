//! Request 110: strict conversion and its measure refuse FFFE and FFFF, from
//! every form, to every form and at every place; what stands beside them passes,
//! and every reading gives them as characters.

use super::conversion::faults::{one_of_each_fault, Faulty, Marked};
use super::conversion::{each_pair, fills, measures, reference_gives, three_ways};
use super::{covering, each_form, lossy};
use crate::library::{JkConversion, JkItem, Linked, LinkedTo};
use crate::random::Drawn;
use crate::reference::{
    most_units, Content, Converted, Decoded, Encoding, Form, Item, Reading, Refusal, LONGEST_TEXT,
};
use crate::report::{hex, told_conversion, Group};

pub fn check(group: &mut Group) {
    let mut texts = 0;
    each_pair!(each_offset(group, &mut texts));
    group.note(format!(
        "{texts} texts with FFFD, FFFE, FFFF or 10000 at one of {} places",
        offsets().count(),
    ));
    each_pair!(another_fault(group));
    each_pair!(not_lent(group));
    each_pair!(longest(group));
    each_form!(read_at_each_offset(group));
}

const SOURCE: &str = "request 110";

const TURNED_AWAY: [u32; 2] = [0xFFFE, 0xFFFF];

/// The two and what stands on both sides of them.
const BOTH_SIDES: [u32; 4] = [0xFFFD, 0xFFFE, 0xFFFF, 0x1_0000];

/// Characters to stand around: of each length, then such as have units or bits
/// of the two, then all of these by turns. Every conversion accepts them.
const AROUND: [&[u32]; 8] = [
    &[0x41],
    &[0xA9],
    &[0x2260],
    &[0x1_0000],
    &[0xFFFD],
    &[0x3FFF],
    &[0x1_FFFF, 0x1_FFFE],
    &[
        0x41, 0xA9, 0x2260, 0x1_0000, 0xFFFD, 0x3FFF, 0x10_FFFF, 0xFDD0, 0xFEFF, 0xFFF, 0xFFEF,
    ],
];

/// Every offset of two blocks of 64 units, a few more, and those beside the
/// borders of longer blocks.
fn offsets() -> impl Iterator<Item = usize> {
    let borders = [256, 512, 1_024, 4_096];
    let beside = borders
        .into_iter()
        .flat_map(|border| border - 1..=border + 1);
    (0..=136).chain(beside)
}

/// Units behind the character: more than a block of 128, so that each offset
/// stands in a whole one.
const BEHIND: usize = 140;

fn legal<F: Form>(value: u32) -> Encoding<F::Unit> {
    F::encode(value).expect("every form holds it")
}

/// The characters by turns, so many that exactly `units` units of the form `F`
/// are full; ASCII goes before them where the last one would not fit.
fn stretch<F: Form>(around: &[u32], units: usize) -> Vec<u32> {
    let mut characters = Vec::new();
    let mut full = 0;
    for &value in around.iter().cycle() {
        let length = legal::<F>(value).len();
        if full + length > units {
            break;
        }
        characters.push(value);
        full += length;
    }
    let mut values = vec![0x41; units - full];
    values.extend(characters);
    values
}

fn spelled<F: Form>(values: &[u32]) -> Vec<F::Unit> {
    let mut text = Vec::new();
    for &value in values {
        text.extend_from_slice(&legal::<F>(value));
    }
    text
}

fn refused<G: Form>(fault: u32, offset: usize) -> Converted<G> {
    Err(Refusal { fault, offset })
}

/// What the characters give in the form `G`, where the first `value` among them
/// stands at `offset` and no other is turned away.
fn given<G: Form>(values: &[u32], value: u32, offset: usize) -> Converted<G> {
    match TURNED_AWAY.contains(&value) {
        true => refused::<G>(12, offset),
        false => Ok(spelled::<G>(values)),
    }
}

/// Each of `BOTH_SIDES` at each offset, as the last character and before
/// others.
fn each_offset<F: LinkedTo<G> + Drawn, G: LinkedTo<F>>(group: &mut Group, texts: &mut usize) {
    for around in AROUND {
        for offset in offsets() {
            let before = stretch::<F>(around, offset);
            for value in BOTH_SIDES {
                for after in [0, BEHIND] {
                    let after = stretch::<F>(around, after);
                    let values = [&before[..], &[value], &after].concat();
                    let text = spelled::<F>(&values);
                    let expected = given::<G>(&values, value, offset);
                    reference_gives::<F, G>(group, SOURCE, &text, &expected);
                    measures::<F, G>(group, SOURCE, &text, &expected);
                    let room = most_units::<F, G>(text.len());
                    fills::<F, G>(group, SOURCE, &text, &expected, room);
                    *texts += 1;
                }
            }
        }
    }
}

/// Units between two faults: none, and such that both stand in one block or in
/// two.
const BETWEEN: [usize; 12] = [0, 1, 2, 3, 7, 8, 15, 16, 31, 62, 63, 64];

/// Beside another fault the lower place decides, however near the two are.
fn another_fault<F: Marked + LinkedTo<G> + Drawn, G: LinkedTo<F>>(group: &mut Group) {
    let ascii = |units| spelled::<F>(&stretch::<F>(&[0x41], units));
    for value in TURNED_AWAY {
        let turned_away = legal::<F>(value);
        for Faulty { units, fault } in one_of_each_fault::<F, G>() {
            for offset in [0, 1, 30, 63, 64] {
                for between in BETWEEN {
                    let mut either_first = |first: &[F::Unit], second: &[F::Unit], fault| {
                        let parts = [&ascii(offset), first, &ascii(between), second, &ascii(9)];
                        let expected = refused::<G>(fault, offset);
                        three_ways::<F, G>(group, SOURCE, &parts.concat(), &expected);
                    };
                    either_first(&turned_away, &units, 12);
                    either_first(&units, &turned_away, fault);
                }
            }
        }
    }
}

/// What stands before the text or behind it in memory is not lent and refuses
/// nothing.
fn not_lent<F: LinkedTo<G>, G: Form>(group: &mut Group) {
    for value in TURNED_AWAY {
        let wall = legal::<F>(value).repeat(32);
        for length in 0..=136 {
            let values = stretch::<F>(&[0x41, 0xFFFD], length);
            let memory = [&wall[..], &spelled::<F>(&values), &wall].concat();
            let text = &memory[wall.len()..][..length];
            let result = spelled::<G>(&values);
            let mut cells = vec![G::unit(0); result.len()];
            let expected = JkConversion::of(Ok(result.len()));
            let measured = F::measure(text);
            let converted = F::convert(text, &mut cells);
            let same = measured == expected && converted == expected && cells == result;
            group.check(same, || {
                format!(
                    "{SOURCE}: {value:X} before and behind {} [{}] to {}: measured {}, came {}",
                    F::NAME,
                    hex::<F>(text),
                    G::NAME,
                    told_conversion(measured),
                    told_conversion(converted),
                )
            });
        }
    }
}

/// The longest texts with one of them at the end, and all through; a longer one
/// is too long before anything else.
fn longest<F: LinkedTo<G> + Drawn, G: LinkedTo<F>>(group: &mut Group) {
    for value in BOTH_SIDES {
        let length = legal::<F>(value).len();
        for units in [LONGEST_TEXT - 1, LONGEST_TEXT, LONGEST_TEXT + 1] {
            let offset = units - length;
            let at_the_end = [&vec![0x41; offset][..], &[value]].concat();
            let left_over = vec![0x41; units % length];
            let all_through = [vec![value; units / length], left_over].concat();
            for (values, offset) in [(at_the_end, offset), (all_through, 0)] {
                let expected = match units > LONGEST_TEXT {
                    true => refused::<G>(1, 0),
                    false => given::<G>(&values, value, offset),
                };
                three_ways::<F, G>(group, SOURCE, &spelled::<F>(&values), &expected);
            }
        }
    }
}

/// The reader, the finder and the mended reading give each of `BOTH_SIDES` as
/// a character at each offset.
fn read_at_each_offset<F: Linked + Drawn>(group: &mut Group) {
    for around in AROUND {
        for offset in offsets() {
            let before = stretch::<F>(around, offset);
            let after = stretch::<F>(around, BEHIND);
            for value in BOTH_SIDES {
                let values = [&before[..], &[value], &after].concat();
                let text = spelled::<F>(&values);
                let item = Item {
                    start: offset,
                    length: legal::<F>(value).len(),
                    content: Content::Character(value),
                };
                let given = JkItem::of(Reading::Item(item), offset);
                group.answer::<F>(&text, offset, given, SOURCE);
                for unit in offset..offset + item.length {
                    covering::answer::<F>(group, SOURCE, &text, unit, given);
                }

                let mut mended = Decoded::default();
                let mut start = 0;
                for &value in &values {
                    mended.add(Content::Character(value), start);
                    start += legal::<F>(value).len();
                }
                let items = values.len();
                lossy::fills::<F>(group, SOURCE, &text, &Ok(mended), items, items);
            }
        }
    }
}
