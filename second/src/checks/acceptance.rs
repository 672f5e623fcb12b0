//! What document 01 says of reading, point by point; each text is converted to
//! the other forms, is read mended, and has its items found as well.

use super::conversion::ToOthers;
use super::{character, each_form, from_i8, mark, one_character, one_value, three_ways, Told};
use crate::library::{JkItem, Linked};
use crate::reference::{
    Form, FssUtf, Reading, Role, Ucs4, Utf16, UtfEbcdic, FSS_UTF, HIGHEST_VALUE, I8,
    I8_TO_UTF_EBCDIC, UTF_EBCDIC_TO_I8,
};
use crate::report::Group;

pub fn check(group: &mut Group) {
    starred(group);
    limits_of_lengths(group);
    other_converters(group);
    items(group);
    each_form!(still_read(group));
    surrogates(group);
    turned_away(group);
    flags(group);
    free_bits(group);
    each_form!(empty(group));
}

/// The points marked with a star.
fn starred(group: &mut Group) {
    let source = "acceptance point";
    one_character::<FssUtf>(group, source, 0xA9, &[0xC2, 0xA9]);
    one_character::<FssUtf>(group, source, 0x2260, &[0xE2, 0x89, 0xA0]);
    one_character::<FssUtf>(
        group,
        source,
        0x7FFF_FFFF,
        &[0xFD, 0xBF, 0xBF, 0xBF, 0xBF, 0xBF],
    );
    three_ways::<FssUtf>(group, source, &[0xC0, 0x80], &[mark(5, 2)]);
    three_ways::<FssUtf>(group, source, &[0xFE], &[mark(4, 1)]);
    let followed = [mark(2, 2), character(0x41, 1)];
    three_ways::<FssUtf>(group, source, &[0xE2, 0x89, 0x41], &followed);
    // Request 104: "The case ED A0 80 becomes a mark."
    three_ways::<FssUtf>(group, source, &[0xED, 0xA0, 0x80], &[mark(10, 3)]);

    one_character::<UtfEbcdic>(group, source, 0xA0, &[0x47, 0x80]);
    one_character::<UtfEbcdic>(group, source, 0x400, &[0x9A, 0x80, 0x80]);
    one_character::<UtfEbcdic>(group, source, 0x4000, &[0xB2, 0xBF, 0x80, 0x80]);
    one_character::<UtfEbcdic>(group, source, 0x41, &[0xC1]);
    let highest = [0xE1, 0xFE, 0xFE, 0xFE, 0xFE, 0xFE, 0xFE];
    one_character::<UtfEbcdic>(group, source, 0x7FFF_FFFF, &highest);

    one_character::<Utf16>(group, source, 0x1_0000, &[0xD800, 0xDC00]);
    three_ways::<Utf16>(group, source, &[0xDC00], &[mark(3, 1)]);
}

/// "Both sides of limits", and the limits of the layouts that are not spelled
/// out there but stand in the table. FFFF is read, and by request 110 refused
/// in conversion.
fn limits_of_lengths(group: &mut Group) {
    let source = "both sides of limits";
    let fss_utf: [(u32, &[u32]); 12] = [
        (0x0, &[0x00]),
        (0x7F, &[0x7F]),
        (0x80, &[0xC2, 0x80]),
        (0x7FF, &[0xDF, 0xBF]),
        (0x800, &[0xE0, 0xA0, 0x80]),
        (0xFFFF, &[0xEF, 0xBF, 0xBF]),
        (0x1_0000, &[0xF0, 0x90, 0x80, 0x80]),
        (0x1F_FFFF, &[0xF7, 0xBF, 0xBF, 0xBF]),
        (0x20_0000, &[0xF8, 0x88, 0x80, 0x80, 0x80]),
        (0x3FF_FFFF, &[0xFB, 0xBF, 0xBF, 0xBF, 0xBF]),
        (0x400_0000, &[0xFC, 0x84, 0x80, 0x80, 0x80, 0x80]),
        (0x7FFF_FFFF, &[0xFD, 0xBF, 0xBF, 0xBF, 0xBF, 0xBF]),
    ];
    for (value, bytes) in fss_utf {
        one_character::<FssUtf>(group, source, value, bytes);
    }

    let i8_layout: [(u32, &[u32]); 14] = [
        (0x0, &[0x00]),
        (0x9F, &[0x9F]),
        (0xA0, &[0xC5, 0xA0]),
        (0x3FF, &[0xDF, 0xBF]),
        (0x400, &[0xE1, 0xA0, 0xA0]),
        (0x3FFF, &[0xEF, 0xBF, 0xBF]),
        (0x4000, &[0xF0, 0xB0, 0xA0, 0xA0]),
        (0x3_FFFF, &[0xF7, 0xBF, 0xBF, 0xBF]),
        (0x4_0000, &[0xF8, 0xA8, 0xA0, 0xA0, 0xA0]),
        (0x3F_FFFF, &[0xFB, 0xBF, 0xBF, 0xBF, 0xBF]),
        (0x40_0000, &[0xFC, 0xA4, 0xA0, 0xA0, 0xA0, 0xA0]),
        (0x3FF_FFFF, &[0xFD, 0xBF, 0xBF, 0xBF, 0xBF, 0xBF]),
        (0x400_0000, &[0xFE, 0xA2, 0xA0, 0xA0, 0xA0, 0xA0, 0xA0]),
        (0x7FFF_FFFF, &[0xFF, 0xBF, 0xBF, 0xBF, 0xBF, 0xBF, 0xBF]),
    ];
    for (value, bytes) in i8_layout {
        one_character::<UtfEbcdic>(group, source, value, &from_i8(bytes));
    }

    let utf16: [(u32, &[u32]); 6] = [
        (0x0, &[0x0000]),
        (0xD7FF, &[0xD7FF]),
        (0xE000, &[0xE000]),
        (0xFFFF, &[0xFFFF]),
        (0x1_0000, &[0xD800, 0xDC00]),
        (0x10_FFFF, &[0xDBFF, 0xDFFF]),
    ];
    for (value, units) in utf16 {
        one_character::<Utf16>(group, source, value, units);
    }
    for high in [0xD800, 0xDBFF] {
        three_ways::<Utf16>(group, source, &[high], &[mark(2, 1)]);
    }
    for low in [0xDC00, 0xDFFF] {
        three_ways::<Utf16>(group, source, &[low], &[mark(3, 1)]);
    }

    for value in [0x0, 0x7FFF_FFFF] {
        one_character::<Ucs4>(group, source, value, &[value]);
    }
    for unit in [0x8000_0000, 0xFFFF_FFFF] {
        three_ways::<Ucs4>(group, source, &[unit], &[mark(4, 1)]);
    }
}

/// "Errors seen in other converters".
fn other_converters(group: &mut Group) {
    let source = "error of other converters";
    let short_then_lead = [mark(2, 2), character(0xA9, 2)];
    three_ways::<FssUtf>(group, source, &[0xE2, 0x89, 0xC2, 0xA9], &short_then_lead);
    let short_then_short = [mark(2, 1), mark(2, 1)];
    three_ways::<FssUtf>(group, source, &[0xC2, 0xE2], &short_then_short);
    let short_then_lead = [mark(2, 2), character(0xA0, 2)];
    let bytes = from_i8(&[0xE1, 0xA0, 0xC5, 0xA0]);
    three_ways::<UtfEbcdic>(group, source, &bytes, &short_then_lead);
    let short_then_pair = [mark(2, 1), character(0x1_0000, 2)];
    three_ways::<Utf16>(group, source, &[0xD800, 0xD800, 0xDC00], &short_then_pair);

    // "Two three-byte surrogate values are passed to UTF-16 as a pair": they are
    // two marks.
    let pair = [0xED, 0xA0, 0x80, 0xED, 0xB0, 0x80];
    three_ways::<FssUtf>(group, source, &pair, &[mark(10, 3), mark(10, 3)]);
    let pair = from_i8(&[0xF1, 0xB6, 0xA0, 0xA0, 0xF1, 0xB7, 0xA0, 0xA0]);
    three_ways::<UtfEbcdic>(group, source, &pair, &[mark(10, 4), mark(10, 4)]);

    for second in 0xA0..=0xBF {
        for third in 0xA0..=0xBF {
            let bytes = from_i8(&[0xE0, second, third]);
            three_ways::<UtfEbcdic>(group, source, &bytes, &[mark(5, 3)]);
        }
    }
}

/// The section "Items", sentence by sentence.
fn items(group: &mut Group) {
    let source = "section Items";

    // A lead takes as many trailing units as its length asks and no more.
    let full_then_trailing = [character(0xA9, 2), mark(3, 1), mark(3, 1)];
    three_ways::<FssUtf>(
        group,
        source,
        &[0xC2, 0xA9, 0x80, 0xBF],
        &full_then_trailing,
    );
    let full_then_trailing = [character(0x1_0000, 2), mark(3, 1)];
    three_ways::<Utf16>(
        group,
        source,
        &[0xD800, 0xDC00, 0xDC00],
        &full_then_trailing,
    );

    // If there are fewer, lead and those few are one mark.
    three_ways::<FssUtf>(
        group,
        source,
        &[0xFC, 0x84, 0x80, 0x80, 0x80],
        &[mark(2, 5)],
    );
    let bytes = from_i8(&[0xFF, 0xBF, 0xBF, 0xBF, 0xBF, 0xBF]);
    three_ways::<UtfEbcdic>(group, source, &bytes, &[mark(2, 6)]);
    let short_then_single = [mark(2, 1), character(0x41, 1)];
    three_ways::<Utf16>(group, source, &[0xDBFF, 0x41], &short_then_single);

    // A trailing unit that no lead takes is one mark alone.
    let alone = [mark(3, 1), mark(3, 1)];
    three_ways::<FssUtf>(group, source, &[0x80, 0xBF], &alone);
    three_ways::<UtfEbcdic>(group, source, &from_i8(&[0xA0, 0xBF]), &alone);
    three_ways::<Utf16>(group, source, &[0xDC00, 0xDFFF], &alone);

    // FE or FF in FSS-UTF is one mark alone, whatever follows.
    let unused = [mark(4, 1), mark(4, 1), mark(3, 1)];
    three_ways::<FssUtf>(group, source, &[0xFE, 0xFF, 0x80], &unused);
    let interrupted = [mark(2, 2), mark(4, 1), mark(3, 1)];
    three_ways::<FssUtf>(group, source, &[0xE2, 0x89, 0xFF, 0xA0], &interrupted);

    // A full sequence with a fault is one mark over all its bytes.
    let overlong = [mark(5, 6), character(0x41, 1)];
    three_ways::<FssUtf>(
        group,
        source,
        &[0xFC, 0x83, 0xBF, 0xBF, 0xBF, 0xBF, 0x41],
        &overlong,
    );
    // 001 calls C0 to C4 and E0 invalid octets; document 01 has them as leads.
    for lead in 0xC0..=0xC4 {
        let bytes = from_i8(&[lead, 0xA0]);
        three_ways::<UtfEbcdic>(group, source, &bytes, &[mark(5, 2)]);
        let bytes = from_i8(&[lead, 0x41]);
        three_ways::<UtfEbcdic>(group, source, &bytes, &short_then_single);
    }

    // A UCS-4 unit is always one item.
    let units = [0x41, 0x8000_0000, 0xD800, 0xDC00, 0xFFFF_FFFF];
    let singly = [
        character(0x41, 1),
        mark(4, 1),
        mark(10, 1),
        mark(10, 1),
        mark(4, 1),
    ];
    three_ways::<Ucs4>(group, source, &units, &singly);

    // The listing program's example, read item by item.
    let example = [
        character(0x41, 1),
        character(0xA9, 2),
        mark(3, 1),
        mark(2, 2),
        character(0x0A, 1),
    ];
    three_ways::<FssUtf>(
        group,
        source,
        &[0x41, 0xC2, 0xA9, 0x80, 0xE2, 0x89, 0x0A],
        &example,
    );
}

/// FEFF, FFFE and FFFF are characters, which every reading gives; request 110
/// has conversion refuse the last two.
fn still_read<F: ToOthers>(group: &mut Group) {
    for value in [0xFEFF, 0xFFFE, 0xFFFF] {
        match F::encode(value) {
            Some(legal) => {
                let units: Vec<u32> = legal.iter().map(|&unit| unit.into()).collect();
                one_character::<F>(group, "a value that is read", value, &units);
            }
            None => group.check(false, || {
                format!("the reference has no encoding of {value:X} in {}", F::NAME)
            }),
        }
    }
}

/// Request 104, for each of its 2,048 values and the two beside them: "such a
/// value in UCS-4, FSS-UTF or UTF-EBCDIC is a fault, one mark over its whole
/// sequence", and "a too-long sequence for D800 stays 5". In UTF-16 the units
/// of these numbers stay 2 and 3.
fn surrogates(group: &mut Group) {
    let source = "request 104";
    for value in 0xD7FF..=0xE000_u32 {
        let fss_utf = [
            0xE0 + (value >> 12),
            0x80 + ((value >> 6) & 0x3F),
            0x80 + (value & 0x3F),
        ];
        one_value::<FssUtf>(group, source, value, &fss_utf);
        let i8_bytes = [
            0xF0 + (value >> 15),
            0xA0 + ((value >> 10) & 0x1F),
            0xA0 + ((value >> 5) & 0x1F),
            0xA0 + (value & 0x1F),
        ];
        one_value::<UtfEbcdic>(group, source, value, &from_i8(&i8_bytes));
        one_value::<Ucs4>(group, source, value, &[value]);

        let too_long = [
            0xF0,
            0x80 + (value >> 12),
            0x80 + ((value >> 6) & 0x3F),
            0x80 + (value & 0x3F),
        ];
        three_ways::<FssUtf>(group, source, &too_long, &[mark(5, 4)]);
        let too_long = [&[0xF8, 0xA0 + (value >> 15)], &i8_bytes[1..]].concat();
        three_ways::<UtfEbcdic>(group, source, &from_i8(&too_long), &[mark(5, 5)]);
    }
    for high in 0xD800..=0xDBFF {
        three_ways::<Utf16>(group, source, &[high], &[mark(2, 1)]);
    }
    for low in 0xDC00..=0xDFFF {
        three_ways::<Utf16>(group, source, &[low], &[mark(3, 1)]);
    }

    // The mark costs no neighbour, and a cut sequence is cut, not a surrogate.
    let between = [character(0x41, 1), mark(10, 3), character(0x42, 1)];
    three_ways::<FssUtf>(group, source, &[0x41, 0xED, 0xBF, 0xBF, 0x42], &between);
    let cut = [mark(2, 2), character(0x42, 1)];
    three_ways::<FssUtf>(group, source, &[0xED, 0xA0, 0x42], &cut);
    let trailing = [mark(10, 3), mark(3, 1)];
    three_ways::<FssUtf>(group, source, &[0xED, 0xA0, 0x80, 0x80], &trailing);
}

/// Request 110: the readings "keep showing them as characters", between others
/// and between marks; what conversion makes of each text follows from its items.
fn turned_away(group: &mut Group) {
    let source = "request 110";
    let fss_utf: [(&[u32], &[Told]); 7] = [
        (
            &[0xEF, 0xBF, 0xBE, 0xEF, 0xBF, 0xBF],
            &[character(0xFFFE, 3), character(0xFFFF, 3)],
        ),
        (
            &[0x41, 0xEF, 0xBF, 0xBD, 0xEF, 0xBF, 0xBF, 0x42],
            &[
                character(0x41, 1),
                character(0xFFFD, 3),
                character(0xFFFF, 3),
                character(0x42, 1),
            ],
        ),
        (
            &[0xED, 0xA0, 0x80, 0xEF, 0xBF, 0xBF],
            &[mark(10, 3), character(0xFFFF, 3)],
        ),
        (
            &[0xEF, 0xBF, 0xBF, 0xED, 0xA0, 0x80],
            &[character(0xFFFF, 3), mark(10, 3)],
        ),
        (
            &[0xEF, 0xBF, 0xEF, 0xBF, 0xBE, 0xBF],
            &[mark(2, 2), character(0xFFFE, 3), mark(3, 1)],
        ),
        (
            &[0xF0, 0x8F, 0xBF, 0xBF, 0xEF, 0xBF, 0xBF],
            &[mark(5, 4), character(0xFFFF, 3)],
        ),
        (
            &[0xF4, 0x90, 0x80, 0x80, 0xEF, 0xBF, 0xBF],
            &[character(0x11_0000, 4), character(0xFFFF, 3)],
        ),
    ];
    for (bytes, read) in fss_utf {
        three_ways::<FssUtf>(group, source, bytes, read);
    }

    let i8_bytes: [(&[u32], &[Told]); 3] = [
        (
            &[0xEF, 0xBF, 0xBF, 0xF1, 0xBF, 0xBF, 0xBF, 0x41],
            &[
                character(0x3FFF, 3),
                character(0xFFFF, 4),
                character(0x41, 1),
            ],
        ),
        (
            &[0xF1, 0xBF, 0xBF, 0xF1, 0xBF, 0xBF, 0xBE, 0xBF],
            &[mark(2, 3), character(0xFFFE, 4), mark(3, 1)],
        ),
        (
            &[0xF8, 0xA1, 0xBF, 0xBF, 0xBF, 0xF1, 0xBF, 0xBF, 0xBF],
            &[mark(5, 5), character(0xFFFF, 4)],
        ),
    ];
    for (bytes, read) in i8_bytes {
        three_ways::<UtfEbcdic>(group, source, &from_i8(bytes), read);
    }

    let units = [0xFFFE, 0xD83F, 0xFFFF, 0xD83F, 0xDFFF, 0xDFFF];
    let read = [
        character(0xFFFE, 1),
        mark(2, 1),
        character(0xFFFF, 1),
        character(0x1_FFFF, 2),
        mark(3, 1),
    ];
    three_ways::<Utf16>(group, source, &units, &read);
    let units = [0x1_FFFE, 0xFFFE, 0xDFFF, 0xFFFF, 0xFFFF_FFFF];
    let read = [
        character(0x1_FFFE, 1),
        character(0xFFFE, 1),
        mark(10, 1),
        character(0xFFFF, 1),
        mark(4, 1),
    ];
    three_ways::<Ucs4>(group, source, &units, &read);
}

/// Document 01's flag of a UTF-EBCDIC byte, by the words of its rule.
pub fn flag(utf_ebcdic: u8) -> u32 {
    match UTF_EBCDIC_TO_I8[usize::from(utf_ebcdic)] {
        0x00..=0x1F | 0x7F..=0x9F => 0,
        0x20..=0x7E => 1,
        0xA0..=0xBF => 9,
        0xC0..=0xDF => 2,
        0xE0..=0xEF => 3,
        0xF0..=0xF7 => 4,
        0xF8..=0xFB => 5,
        0xFC..=0xFD => 6,
        0xFE..=0xFF => 7,
    }
}

/// The reader treats each UTF-EBCDIC byte as its flag says.
fn flags(group: &mut Group) {
    let trailing = I8_TO_UTF_EBCDIC[0xBF];
    for byte in 0..=0xFF {
        let flag = flag(byte);
        let expected = match flag {
            0 | 1 => Role::Single,
            9 => Role::Trailing,
            length => Role::Lead(length as usize),
        };
        let role = UtfEbcdic::role(byte);
        group.check(role == expected, || {
            format!("flag {flag} of {byte:02X}, but the reference has {role:?}")
        });

        // Before more trailing bytes than any lead takes, the item's length
        // is the lead's.
        let mut text = [trailing; 9];
        text[0] = byte;
        let item = UtfEbcdic::item_at(&text, 0);
        let (fits, length) = match flag {
            0 | 1 => (item.fault == 0, 1),
            9 => (item.fault == 3, 1),
            length => (item.fault == 0 || item.fault == 5, u64::from(length)),
        };
        group.check(fits && item.length == length, || {
            format!("flag {flag} of {byte:02X}, but the library gives {item:?}")
        });
    }
}

/// Request 107: "Six FSS-UTF bytes and seven I8 bytes carry 31 free bits at
/// most." Counted in the layouts, where each row's values begin where the row
/// before ends; and asked of the library, for every first byte before more of
/// the highest trailing bytes than it takes: no value is higher, and no fault
/// is 8.
fn free_bits(group: &mut Group) {
    for (layout, name, longest) in [(&FSS_UTF, FssUtf::NAME, 6), (&I8, "I8", 7)] {
        let mut next = 0;
        for row in layout.rows {
            let lead_values = u64::from(row.last_lead - row.first_lead) + 1;
            let trailing_values = 1_u64 << (layout.free_bits * (row.length as u32 - 1));
            let highest = lead_values * trailing_values - 1;
            group.check(
                row.lowest == next && highest == u64::from(row.highest),
                || format!("{name} of {} bytes gives {highest:X} at most", row.length),
            );
            group.check(row.length <= longest && highest >> 31 == 0, || {
                format!("{name} of {} bytes gives {highest:X}", row.length)
            });
            next = row.highest + 1;
        }
    }

    for first in 0..=0xFF {
        let mut text = [0xBF; 9];
        text[0] = first;
        highest_value::<FssUtf>(group, &text);
        text[1..].fill(I8_TO_UTF_EBCDIC[0xBF]);
        highest_value::<UtfEbcdic>(group, &text);
    }
}

fn highest_value<F: Linked<Unit = u8>>(group: &mut Group, text: &[u8]) {
    group.agree::<F>(text, 0, "31 free bits");
    let item = F::item_at(text, 0);
    group.check(item.value <= HIGHEST_VALUE && item.fault != 8, || {
        format!("31 free bits: {} {text:02X?} is {item:?}", F::NAME)
    });
}

/// The empty text has no items.
fn empty<F: ToOthers>(group: &mut Group) {
    three_ways::<F>(group, "the empty text", &[], &[]);
    let refusal = Reading::Refusal {
        fault: 9,
        offset: 1,
    };
    group.answer::<F>(&[], 1, JkItem::of(refusal, 1), "the empty text");
}
