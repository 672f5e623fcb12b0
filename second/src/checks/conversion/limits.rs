//! The longest text and longer ones, the empty one, and room that a narrower
//! number would take for less.

use std::ptr;

use super::faults::{one_of_each_fault, Faulty, Marked};
use super::{each_pair, fills, pair, three_ways};
use crate::checks::reserved::Reserved;
use crate::library::{JkConversion, LinkedTo};
use crate::random::{add_common, Drawn, Random};
use crate::reference::{
    convert, Converted, Form, FssUtf, Refusal, Ucs4, Utf16, UtfEbcdic, LONGEST_TEXT,
};
use crate::report::{hex, told_conversion, Group};

pub fn check(group: &mut Group) {
    each_pair!(empty(group));
    each_pair!(longest(group));
    each_pair!(too_long(group));
    too_long_to_be_read_again(group);
    each_pair!(much_room(group));
    texts_beyond_32_bits(group);
    room_beyond_32_bits(group);
}

const TOO_LONG: Refusal = Refusal {
    fault: 1,
    offset: 0,
};

/// "A text of length 0 may come with any pointer"; a buffer without cells
/// comes with one that points nowhere.
fn empty<F: LinkedTo<G> + Drawn, G: LinkedTo<F>>(group: &mut Group) {
    three_ways::<F, G>(group, "the empty text", &[], &Ok(Vec::new()));

    let nothing = JkConversion::of(Ok(0));
    for pointer in [ptr::null(), ptr::without_provenance(1), ptr::dangling()] {
        let before = [G::unit(0x5A); 3];
        let mut cells = before;
        // SAFETY: the text's length is 0, and the buffer's is 0 or that of an
        // array.
        let answers = unsafe {
            [
                F::raw_measure(pointer, 0),
                F::raw_convert(pointer, 0, ptr::dangling_mut(), 0),
                F::raw_convert(pointer, 0, cells.as_mut_ptr(), cells.len()),
            ]
        };
        group.check(answers == [nothing; 3], || {
            format!(
                "the empty text at {pointer:?}, {} to {}: came {}",
                F::NAME,
                G::NAME,
                answers.map(told_conversion).join("; "),
            )
        });
        group.check(cells == before, || {
            format!(
                "the empty text at {pointer:?}, {} to {}: left [{}]",
                F::NAME,
                G::NAME,
                hex::<G>(&cells),
            )
        });
    }
}

/// Accepted texts of exactly so many units: of one unit all through, and of
/// characters drawn at random.
fn accepted<F: Drawn, G: Drawn>(length: usize) -> Vec<Vec<F::Unit>> {
    let single = F::encode(0x41).expect("every form holds it")[0];
    let mut random = Random::new(0x800 + length as u64);
    let mut common = Vec::new();
    add_common::<F, G>(&mut common, length, &mut random);
    common.resize(length, single);
    vec![vec![single; length], common]
}

/// "A source of 65,536 units is taken."
fn longest<F: LinkedTo<G> + Drawn, G: LinkedTo<F> + Drawn>(group: &mut Group) {
    for length in [LONGEST_TEXT - 1, LONGEST_TEXT] {
        for text in accepted::<F, G>(length) {
            let expected = convert::<F, G>(&text);
            group.check(expected.is_ok(), || {
                format!("the reference refuses {}", pair::<F, G>(&text))
            });
            three_ways::<F, G>(group, "longest text", &text, &expected);
        }
    }
}

/// "65,537 gives 1", before any other fault.
fn too_long<F: Marked + LinkedTo<G> + Drawn, G: LinkedTo<F> + Drawn>(group: &mut Group) {
    // The last two would be short if lengths were cut to 16 bits.
    for length in [
        LONGEST_TEXT + 1,
        LONGEST_TEXT + 2,
        70_000,
        2 * LONGEST_TEXT,
        2 * LONGEST_TEXT + 1,
    ] {
        let texts = accepted::<F, G>(length);
        for text in &texts {
            three_ways::<F, G>(group, "text too long", text, &Err(TOO_LONG));
        }
        for Faulty { units, .. } in one_of_each_fault::<F, G>() {
            for place in [0, LONGEST_TEXT - units.len(), length - units.len()] {
                let mut text = texts[0].clone();
                text[place..place + units.len()].copy_from_slice(&units);
                let source = "text too long, with a fault";
                three_ways::<F, G>(group, source, &text, &Err(TOO_LONG));
            }
        }
    }
}

/// "10,923 UCS-4 units of 7FFFFFFF give 65,538 FSS-UTF bytes, too many to be
/// read again"; one fewer is not.
fn too_long_to_be_read_again(group: &mut Group) {
    let character = [0xFD, 0xBF, 0xBF, 0xBF, 0xBF, 0xBF];
    let bytes = character.repeat(10_923);
    let units = vec![0x7FFF_FFFF; 10_923];
    let source = "10,923 units of 7FFFFFFF";
    group.check(bytes.len() == 65_538, || format!("{} bytes", bytes.len()));
    three_ways::<Ucs4, FssUtf>(group, source, &units, &Ok(bytes.clone()));
    three_ways::<FssUtf, Ucs4>(group, source, &bytes, &Err(TOO_LONG));
    three_ways::<FssUtf, Utf16>(group, source, &bytes, &Err(TOO_LONG));
    three_ways::<FssUtf, UtfEbcdic>(group, source, &bytes, &Err(TOO_LONG));

    let source = "10,922 units of 7FFFFFFF";
    let bytes = &bytes[6..];
    let units = &units[1..];
    three_ways::<Ucs4, FssUtf>(group, source, units, &Ok(bytes.to_vec()));
    three_ways::<FssUtf, Ucs4>(group, source, bytes, &Ok(units.to_vec()));
}

/// Room of which 16 bits alone would be little.
fn much_room<F: LinkedTo<G> + Drawn, G: LinkedTo<F> + Drawn>(group: &mut Group) {
    for length in [1, 20] {
        for text in accepted::<F, G>(length) {
            let expected = convert::<F, G>(&text);
            for room in [0xFFFF, 0x1_0000, 0x1_0001, 0x2_0000] {
                fills::<F, G>(group, "much room", &text, &expected, room);
            }
        }
    }
}

/// More bytes than 32 bits count.
type Bytes = Reserved<u8>;

/// A text of more than 2^32 bytes is too long in any room.
fn texts_beyond_32_bits(group: &mut Group) {
    let Some(text) = Bytes::reserve(group, "a text too long") else {
        return;
    };
    refused_whole::<FssUtf, UtfEbcdic>(group, &text);
    refused_whole::<FssUtf, Utf16>(group, &text);
    refused_whole::<FssUtf, Ucs4>(group, &text);
    refused_whole::<UtfEbcdic, FssUtf>(group, &text);
    refused_whole::<UtfEbcdic, Utf16>(group, &text);
    refused_whole::<UtfEbcdic, Ucs4>(group, &text);
}

fn refused_whole<F: LinkedTo<G> + Form<Unit = u8>, G: Form>(group: &mut Group, text: &Bytes) {
    let before = [G::unit(0x5A); 20];
    let mut cells = before;
    for room in [0, cells.len()] {
        // SAFETY: the pointers are to so many bytes and to at least `room`
        // cells.
        let (converted, measured) = unsafe {
            (
                F::raw_convert(text.pointer, Bytes::COUNT, cells.as_mut_ptr(), room),
                F::raw_measure(text.pointer, Bytes::COUNT),
            )
        };
        let expected = JkConversion::of(Err(TOO_LONG));
        group.check(converted == expected && measured == expected, || {
            format!(
                "{} zero bytes of {} to {}: expected fault 1, came {} and measured {}",
                Bytes::COUNT,
                F::NAME,
                G::NAME,
                told_conversion(converted),
                told_conversion(measured),
            )
        });
        group.check(cells == before, || {
            format!(
                "{} to {}: a text too long left [{}]",
                F::NAME,
                G::NAME,
                hex::<G>(&cells)
            )
        });
    }
}

/// A buffer of more than 2^32 bytes has room for ten characters.
fn room_beyond_32_bits(group: &mut Group) {
    let Some(cells) = Bytes::reserve(group, "a large result buffer") else {
        return;
    };
    has_room::<UtfEbcdic, FssUtf>(group, &cells);
    has_room::<Utf16, FssUtf>(group, &cells);
    has_room::<Ucs4, FssUtf>(group, &cells);
    has_room::<FssUtf, UtfEbcdic>(group, &cells);
    has_room::<Utf16, UtfEbcdic>(group, &cells);
    has_room::<Ucs4, UtfEbcdic>(group, &cells);
}

fn has_room<F: LinkedTo<G>, G: Form<Unit = u8>>(group: &mut Group, cells: &Bytes) {
    let legal = F::encode(0x2260).expect("every form holds it");
    let text = legal.repeat(10);
    let expected: Converted<G> = convert::<F, G>(&text);
    // SAFETY: the pointers are to so many units and bytes.
    let came = unsafe { F::raw_convert(text.as_ptr(), text.len(), cells.pointer, Bytes::COUNT) };
    let units = expected.as_ref().map_or(0, Vec::len);
    group.check(came == JkConversion::of(Ok(units)), || {
        format!(
            "{}, into {} cells: came {}",
            pair::<F, G>(&text),
            Bytes::COUNT,
            told_conversion(came)
        )
    });
    // SAFETY: there are more bytes than these.
    let written = unsafe { std::slice::from_raw_parts(cells.pointer, units) };
    group.check(expected.as_deref() == Ok(written), || {
        format!(
            "{}, into {} cells: came [{}]",
            pair::<F, G>(&text),
            Bytes::COUNT,
            hex::<G>(written)
        )
    });
}
