//! Every example and table of the source documents 000 to 004, read item by item
//! and mended, with its starts found, and converted to the other forms.
//!
//! Where a paper has a misprint, document 01 or the bit layout decides; the
//! place is marked "Misprint" here.

use super::acceptance::flag;
use super::conversion::ToOthers;
use super::{character, from_i8, mark, one_character, one_value, three_ways};
use crate::library::{Linked, CHARACTER};
use crate::random::{Drawn, Random};
use crate::reference::{
    is_surrogate, Form, FssUtf, Role, Utf16, UtfEbcdic, FSS_UTF, I8, I8_TO_UTF_EBCDIC,
    UTF_EBCDIC_TO_I8,
};
use crate::report::{hex, Group};

pub fn check(group: &mut Group) {
    fss_utf_tables(group);
    fss_utf_sample_code(group);
    manual_page(group);
    report_table_1(group);
    report_text(group);
    report_byte_maps(group);
    report_table_3(group);
    report_table_4(group);
    annex_tables_1_to_3(group);
    annex_formulas(group);
    annex_malformed(group);
}

/// Fills a bit pattern's free positions, those that are not 0 or 1, with a
/// value's bits; the units of the pattern stand apart by blanks.
fn fill(pattern: &str, value: u32) -> Vec<u32> {
    let mut rest = value;
    let mut units: Vec<u32> = pattern
        .split(' ')
        .rev()
        .map(|unit| {
            unit.chars()
                .rev()
                .enumerate()
                .fold(0, |filled, (place, letter)| {
                    let bit = match letter {
                        '0' => 0,
                        '1' => 1,
                        _ => {
                            let bit = rest & 1;
                            rest >>= 1;
                            bit
                        }
                    };
                    filled | (bit << place)
                })
        })
        .collect();
    assert_eq!(rest, 0, "{value:X} has more bits than {pattern}");
    units.reverse();
    units
}

/// The ends of a range and some values between.
fn samples(low: u32, high: u32) -> Vec<u32> {
    let mut random = Random::new(u64::from(low) << 32 | u64::from(high));
    let mut values = vec![low, high];
    values.extend((0..50).map(|_| random.between(low, high)));
    values
}

/// The ranges and bit patterns of 000 (figure 2-1 and the two tables beside
/// it), 002, 003 and 004.
///
/// Misprints: 000 gives the lead of six bytes nine bits and the lowest
/// six-byte value seven digits, and its figure gives the single byte seven
/// bits; 002's row of six bytes lacks the last trailing byte.
const FSS_UTF_PATTERNS: [(u32, u32, &str); 6] = [
    (0x0000_0000, 0x0000_007F, "0vvvvvvv"),
    (0x0000_0080, 0x0000_07FF, "110vvvvv 10vvvvvv"),
    (0x0000_0800, 0x0000_FFFF, "1110vvvv 10vvvvvv 10vvvvvv"),
    (
        0x0001_0000,
        0x001F_FFFF,
        "11110vvv 10vvvvvv 10vvvvvv 10vvvvvv",
    ),
    (
        0x0020_0000,
        0x03FF_FFFF,
        "111110vv 10vvvvvv 10vvvvvv 10vvvvvv 10vvvvvv",
    ),
    (
        0x0400_0000,
        0x7FFF_FFFF,
        "1111110v 10vvvvvv 10vvvvvv 10vvvvvv 10vvvvvv 10vvvvvv",
    ),
];

fn fss_utf_tables(group: &mut Group) {
    let source = "000 figure 2-1, 002, 003, 004";
    for (low, high, pattern) in FSS_UTF_PATTERNS {
        for value in samples(low, high) {
            let bytes = fill(pattern, value);
            one_value::<FssUtf>(group, source, value, &bytes);
            // 000, 2.1: ASCII bytes stand for ASCII characters and nothing else.
            let ascii = bytes.iter().any(|&byte| byte <= 0x7F);
            group.check(ascii == (value <= 0x7F), || {
                format!("000, 2.1: {value:X} has the bytes {bytes:X?}")
            });
        }
    }
    // "When there are multiple ways to encode a value, for example UCS 0, only
    // the shortest encoding is legal."
    for (_, _, pattern) in &FSS_UTF_PATTERNS[1..] {
        let bytes = fill(pattern, 0);
        three_ways::<FssUtf>(group, source, &bytes, &[mark(5, bytes.len())]);
    }
    // 000, 2.2: "every byte that does not start with 10 is the start of a UCS
    // character sequence", but for FE and FF, which lead nothing.
    for byte in 0..=0xFF_u8 {
        let trailing = byte >> 6 == 0b10;
        let role = FssUtf::role(byte);
        group.check(trailing == (role == Role::Trailing), || {
            format!("000, 2.2: {byte:02X} has the role {role:?}")
        });
        if trailing {
            three_ways::<FssUtf>(group, source, &[byte.into()], &[mark(3, 1)]);
        }
    }
}

/// A line of the sample code's table: mask and bits of the first byte, shift,
/// highest and lowest value.
struct Tab {
    cmask: u32,
    cval: u32,
    shift: u32,
    lmask: u64,
    lval: u64,
}

const TAB: [Tab; 6] = [
    Tab {
        cmask: 0x80,
        cval: 0x00,
        shift: 0,
        lmask: 0x7F,
        lval: 0,
    },
    Tab {
        cmask: 0xE0,
        cval: 0xC0,
        shift: 6,
        lmask: 0x7FF,
        lval: 0x80,
    },
    Tab {
        cmask: 0xF0,
        cval: 0xE0,
        shift: 2 * 6,
        lmask: 0xFFFF,
        lval: 0x800,
    },
    Tab {
        cmask: 0xF8,
        cval: 0xF0,
        shift: 3 * 6,
        lmask: 0x1F_FFFF,
        lval: 0x1_0000,
    },
    Tab {
        cmask: 0xFC,
        cval: 0xF8,
        shift: 4 * 6,
        lmask: 0x3FF_FFFF,
        lval: 0x20_0000,
    },
    Tab {
        cmask: 0xFE,
        cval: 0xFC,
        shift: 5 * 6,
        lmask: 0x7FFF_FFFF,
        lval: 0x400_0000,
    },
];

/// The sample `mbtowc`: the value and its bytes, or none for its -1.
///
/// Misprint: 000's never moves on to the next byte; 004's does.
fn mbtowc(bytes: &[u8]) -> Option<(u32, usize)> {
    let first = *bytes.first()?;
    let mut joined = u64::from(first);
    for (index, tab) in TAB.iter().enumerate() {
        let count = index + 1;
        if u32::from(first) & tab.cmask == tab.cval {
            joined &= tab.lmask;
            return (joined >= tab.lval).then_some((joined as u32, count));
        }
        let free = *bytes.get(count)? ^ 0x80;
        if free & 0xC0 != 0 {
            return None;
        }
        joined = (joined << 6) | u64::from(free);
    }
    None
}

/// The sample `wctomb`: the bytes of a value.
fn wctomb(value: u32) -> Option<Vec<u32>> {
    let tab = TAB.iter().find(|tab| u64::from(value) <= tab.lmask)?;
    let mut shift = tab.shift;
    let mut bytes = vec![tab.cval | (value >> shift)];
    while shift > 0 {
        shift -= 6;
        bytes.push(0x80 | ((value >> shift) & 0x3F));
    }
    Some(bytes)
}

/// The sample code takes and refuses the same sequences as document 01, but for
/// the surrogates of request 104, and names no fault.
fn fss_utf_sample_code(group: &mut Group) {
    let source = "sample code of 000 and 004";
    let mut same = |text: &[u8]| {
        let sample = mbtowc(text).filter(|&(value, _)| !is_surrogate(value));
        let item = FssUtf::item_at(text, 0);
        let read = (item.kind == CHARACTER).then_some((item.value, item.length as usize));
        group.check(sample == read, || {
            format!(
                "{source}: [{}]: mbtowc gives {sample:X?}, the library {item:X?}",
                hex::<FssUtf>(text)
            )
        });
    };
    for first in 0..=0xFF {
        same(&[first]);
        for second in 0..=0xFF {
            same(&[first, second]);
        }
    }
    let mut random = Random::new(4);
    let mut text = Vec::new();
    for _ in 0..100_000 {
        crate::random::draw::<FssUtf>(&mut text, 12, &mut random);
        same(&text);
    }

    for _ in 0..20_000 {
        let value = FssUtf::value(&mut random);
        match wctomb(value) {
            Some(bytes) => one_character::<FssUtf>(group, source, value, &bytes),
            None => group.check(false, || {
                format!("{source}: wctomb has nothing for {value:X}")
            }),
        }
    }
}

/// The examples of 003, the manual page.
fn manual_page(group: &mut Group) {
    let source = "003";
    let copyright = [0b1100_0010, 0b1010_1001];
    one_character::<FssUtf>(group, source, 0b1010_1001, &copyright);
    one_character::<FssUtf>(group, source, 0xA9, &[0xC2, 0xA9]);
    let not_equal = [0b1110_0010, 0b1000_1001, 0b1010_0000];
    one_character::<FssUtf>(group, source, 0b0010_0010_0110_0000, &not_equal);
    one_character::<FssUtf>(group, source, 0x2260, &[0xE2, 0x89, 0xA0]);

    // "The bytes 0xc0, 0xc1, 0xfe, and 0xff are never used": whatever follows
    // them, they start no character, and no other byte is like them.
    for lead in 0..=0xFF_u8 {
        let used = (0..=0xFF_u8).any(|second| {
            let text = [lead, second, 0x80, 0x80, 0x80, 0x80];
            FssUtf::item_at(&text, 0).kind == CHARACTER
        });
        let never = matches!(lead, 0xC0 | 0xC1 | 0xFE | 0xFF) || (0x80..=0xBF).contains(&lead);
        group.check(used != never, || {
            format!("{source}: {lead:02X} starts a character: {used}")
        });
    }

    // "The UCS code values 0xd800-0xdfff (UTF-16 surrogates) ... should not
    // appear in conforming UTF-8 streams": request 104 goes by it.
    for value in 0xD7FE..=0xE001 {
        let bytes = fill("1110vvvv 10vvvvvv 10vvvvvv", value);
        one_value::<FssUtf>(group, source, value, &bytes);
    }

    // "the Unicode standard specifies no characters above 0x10ffff", in four
    // bytes; document 01 carries those above as well.
    one_character::<FssUtf>(group, source, 0x10_FFFF, &[0xF4, 0x8F, 0xBF, 0xBF]);
    one_character::<FssUtf>(group, source, 0x11_0000, &[0xF4, 0x90, 0x80, 0x80]);

    // The escape sequences to and from UTF-8.
    let escapes = [0x1B, 0x25, 0x47, 0x1B, 0x25, 0x40];
    let read = escapes.map(|value| character(value, 1));
    three_ways::<FssUtf>(group, source, &escapes, &read);

    // The ways around a test for "/../", ";" or NUL, and other two-byte
    // sequences with C0 or C1.
    for hidden in 0..=0x7F_u32 {
        let bytes = [0xC0 | (hidden >> 6), 0x80 | (hidden & 0x3F)];
        three_ways::<FssUtf>(group, source, &bytes, &[mark(5, 2)]);
    }
    let path = [0xC0, 0xAF, 0x2E, 0x2E, 0xC0, 0xAF];
    let read = [
        mark(5, 2),
        character(0x2E, 1),
        character(0x2E, 1),
        mark(5, 2),
    ];
    three_ways::<FssUtf>(group, source, &path, &read);
}

/// 001's table 1: bits of I8, and of the surrogate pairs beside it.
///
/// Misprint: digits are lost in several of its patterns, which have fewer
/// than eight or sixteen.
fn report_table_1(group: &mut Group) {
    let source = "001 table 1";
    let i8_patterns = [
        (0x0, 0x7F, "0xxxxxxx"),
        (0x80, 0x9F, "100xxxxx"),
        (0xA0, 0x3FF, "110yyyyy 101xxxxx"),
        (0x400, 0x3FFF, "1110zzzz 101yyyyy 101xxxxx"),
        (0x4000, 0xFFFF, "1111000w 101zzzzz 101yyyyy 101xxxxx"),
        (0x1_0000, 0x3_FFFF, "11110ppw 101zzzzz 101yyyyy 101xxxxx"),
        (
            0x4_0000,
            0x10_FFFF,
            "1111100q 101ppppw 101zzzzz 101yyyyy 101xxxxx",
        ),
    ];
    for (low, high, pattern) in i8_patterns {
        for value in samples(low, high) {
            // The free bits of 100xxxxx are the value's low five.
            let filled = if low == 0x80 { value - 0x80 } else { value };
            one_value::<UtfEbcdic>(group, source, value, &from_i8(&fill(pattern, filled)));
        }
    }
    for (low, high) in [(0x1_0000, 0x3_FFFF), (0x4_0000, 0x10_FFFF)] {
        for value in samples(low, high) {
            // uuuu is one less than the bits above the sixteen lowest.
            let units = fill("110110uuuuwzzzzz 110111yyyyyxxxxx", value - 0x1_0000);
            one_character::<Utf16>(group, source, value, &units);
        }
    }

    // "<0000000000000001> is encoded as <00000001>, not as <11000000 10100001>"
    one_character::<UtfEbcdic>(group, source, 0x1, &from_i8(&[0b0000_0001]));
    let unused = from_i8(&[0b1100_0000, 0b1010_0001]);
    three_ways::<UtfEbcdic>(group, source, &unused, &[mark(5, 2)]);
}

/// The examples in the text of 001's report.
fn report_text(group: &mut Group) {
    // "isInitialByte = ( (byte & 0xE0) != 0xA0)", on I8 bytes.
    for (utf_ebcdic, &byte) in UTF_EBCDIC_TO_I8.iter().enumerate() {
        let initial = byte & 0xE0 != 0xA0;
        let item = UtfEbcdic::item_at(&[utf_ebcdic as u8], 0);
        group.check(initial == (item.fault != 3), || {
            format!("001, isInitialByte of {byte:02X} is {initial}: the library gives {item:?}")
        });
    }

    let source = "001, special values";
    for (i8_byte, utf_ebcdic) in [(0xFE_u8, 0x4A), (0xFF, 0xE1), (0xBF, 0xFE), (0x9F, 0xFF)] {
        let mapped = I8_TO_UTF_EBCDIC[usize::from(i8_byte)];
        group.check(mapped == utf_ebcdic, || {
            format!("{source}: {i8_byte:02X} to {utf_ebcdic:02X}, the reference has {mapped:02X}")
        });
    }
    // FF FF, FE FF and FF FE are in no well-formed I8 text.
    for pair in [[0xFF, 0xFF], [0xFE, 0xFF], [0xFF, 0xFE]] {
        three_ways::<UtfEbcdic>(group, source, &from_i8(&pair), &[mark(2, 1), mark(2, 1)]);
    }
    // FE FF may appear in UTF-EBCDIC: a last trailing byte, then APC.
    let apc = [0xDF, 0xBF, 0x9F];
    let read = [character(0x3FF, 2), character(0x9F, 1)];
    three_ways::<UtfEbcdic>(group, source, &from_i8(&apc), &read);
    three_ways::<UtfEbcdic>(group, source, &[0x78, 0xFE, 0xFF], &read);
    // An APC before a trailing byte is not well-formed.
    three_ways::<UtfEbcdic>(
        group,
        source,
        &[0xFF, 0xFE],
        &[character(0x9F, 1), mark(3, 1)],
    );

    let source = "001, signature";
    one_character::<UtfEbcdic>(group, source, 0xFEFF, &[0xB3, 0xFE, 0xDE, 0xFE]);
    one_character::<UtfEbcdic>(group, source, 0xFFFE, &[0xB3, 0xFE, 0xFE, 0xFD]);

    let source = "001, normalization";
    let last_of_plane_3 = [0b1111_0111, 0b1011_1111, 0b1011_1111, 0b1011_1111];
    one_character::<UtfEbcdic>(group, source, 0x3_FFFF, &from_i8(&last_of_plane_3));
    let length = UtfEbcdic::encode(0xFFFF).map(|legal| legal.len());
    group.check(length == Some(4), || {
        format!("{source}: FFFF has {length:?} bytes")
    });
    // Surrogates treated as any other characters, four bytes each: request 104
    // makes each of them a mark of four bytes.
    for surrogate in [0xD800, 0xDBFF, 0xDC00, 0xDFFF] {
        let bytes = fill("1111000w 101zzzzz 101yyyyy 101xxxxx", surrogate);
        three_ways::<UtfEbcdic>(group, source, &from_i8(&bytes), &[mark(10, 4)]);
    }
}

// The tables of 001 as printed, the row headings left out.

const TABLE_2_TO_UTF_EBCDIC: &str = "
    00 01 02 03 37 2D 2E 2F 16 05 25 0B 0C 0D 0E 0F
    10 11 12 13 3C 3D 32 26 18 19 3F 27 1C 1D 1E 1F
    40 5A 7F 7B 5B 6C 50 7D 4D 5D 5C 4E 6B 60 4B 61
    F0 F1 F2 F3 F4 F5 F6 F7 F8 F9 7A 5E 4C 7E 6E 6F
    7C C1 C2 C3 C4 C5 C6 C7 C8 C9 D1 D2 D3 D4 D5 D6
    D7 D8 D9 E2 E3 E4 E5 E6 E7 E8 E9 AD E0 BD 5F 6D
    79 81 82 83 84 85 86 87 88 89 91 92 93 94 95 96
    97 98 99 A2 A3 A4 A5 A6 A7 A8 A9 C0 4F D0 A1 07
    20 21 22 23 24 15 06 17 28 29 2A 2B 2C 09 0A 1B
    30 31 1A 33 34 35 36 08 38 39 3A 3B 04 14 3E FF
    80 8C 8D 8E 8F 90 9C 9D 9E 9F A0 AC AE AF BC BE
    BF CC CD CE CF DC DD DE DF EC ED EE EF FC FD FE
    42 43 44 45 46 47 48 49 52 53 54 55 56 57 58 59
    62 63 64 65 66 67 68 69 71 72 73 74 75 76 77 78
    8A 9A AA BA CA DA EA FA 8B 9B AB BB CB DB EB FB
    B2 B3 B4 B5 B6 B7 B8 B9 6A 70 B0 B1 41 51 4A E1
";

const TABLE_2_TO_I8: &str = "
    00 01 02 03 9C 09 86 7F 97 8D 8E 0B 0C 0D 0E 0F
    10 11 12 13 9D 85 08 87 18 19 92 8F 1C 1D 1E 1F
    80 81 82 83 84 0A 17 1B 88 89 8A 8B 8C 05 06 07
    90 91 16 93 94 95 96 04 98 99 9A 9B 14 15 9E 1A
    20 FC C0 C1 C2 C3 C4 C5 C6 C7 FE 2E 3C 28 2B 7C
    26 FD C8 C9 CA CB CC CD CE CF 21 24 2A 29 3B 5E
    2D 2F D0 D1 D2 D3 D4 D5 D6 D7 F8 2C 25 5F 3E 3F
    F9 D8 D9 DA DB DC DD DE DF 60 3A 23 40 27 3D 22
    A0 61 62 63 64 65 66 67 68 69 E0 E8 A1 A2 A3 A4
    A5 6A 6B 6C 6D 6E 6F 70 71 72 E1 E9 A6 A7 A8 A9
    AA 7E 73 74 75 76 77 78 79 7A E2 EA AB 5B AC AD
    FA FB F0 F1 F2 F3 F4 F5 F6 F7 E3 EB AE 5D AF B0
    7B 41 42 43 44 45 46 47 48 49 E4 EC B1 B2 B3 B4
    7D 4A 4B 4C 4D 4E 4F 50 51 52 E5 ED B5 B6 B7 B8
    5C FF 53 54 55 56 57 58 59 5A E6 EE B9 BA BB BC
    30 31 32 33 34 35 36 37 38 39 E7 EF BD BE BF 9F
";

const TABLE_3_FLAGS: &str = "
    0 0 0 0 0 0 0 0 0 0 0 0 0 0 0 0
    0 0 0 0 0 0 0 0 0 0 0 0 0 0 0 0
    0 0 0 0 0 0 0 0 0 0 0 0 0 0 0 0
    0 0 0 0 0 0 0 0 0 0 0 0 0 0 0 0
    1 6 2 2 2 2 2 2 2 2 7 1 1 1 1 1
    1 6 2 2 2 2 2 2 2 2 1 1 1 1 1 1
    1 1 2 2 2 2 2 2 2 2 5 1 1 1 1 1
    5 2 2 2 2 2 2 2 2 1 1 1 1 1 1 1
    9 1 1 1 1 1 1 1 1 1 3 3 9 9 9 9
    9 1 1 1 1 1 1 1 1 1 3 3 9 9 9 9
    9 1 1 1 1 1 1 1 1 1 3 3 9 1 9 9
    5 5 4 4 4 4 4 4 4 4 3 3 9 1 9 9
    1 1 1 1 1 1 1 1 1 1 3 3 9 9 9 9
    1 1 1 1 1 1 1 1 1 1 3 3 9 9 9 9
    1 7 1 1 1 1 1 1 1 1 3 3 9 9 9 9
    1 1 1 1 1 1 1 1 1 1 3 3 9 9 9 0
";

const TABLE_6: &str = "
    00 01 02 03 37 2D 2E 2F 16 05 25 0B 0C 0D 0E 0F
    10 11 12 13 3C 3D 32 26 18 19 3F 27 1C 1D 1E 1F
    40 5A 7F 7B 5B 6C 50 7D 4D 5D 5C 4E 6B 60 4B 61
    F0 F1 F2 F3 F4 F5 F6 F7 F8 F9 7A 5E 4C 7E 6E 6F
    7C C1 C2 C3 C4 C5 C6 C7 C8 C9 D1 D2 D3 D4 D5 D6
    D7 D8 D9 E2 E3 E4 E5 E6 E7 E8 E9 AD E0 BD 5F 6D
    79 81 82 83 84 85 86 87 88 89 91 92 93 94 95 96
    97 98 99 A2 A3 A4 A5 A6 A7 A8 A9 C0 4F D0 A1 07
    20 21 22 23 24 15 06 17 28 29 2A 2B 2C 09 0A 1B
    30 31 1A 33 34 35 36 08 38 39 3A 3B 04 14 3E FF
    80 8C 8D 8E 8F 90 9C 9D 9E 9F A0 AC AE AF BC BE
    BF CC CD CE CF DC DD DE DF EC ED EE EF FC FD FE
    42 43 44 45 46 47 48 49 52 53 54 55 56 57 58 59
    62 63 64 65 66 67 68 69 71 72 73 74 75 76 77 78
    8A 9A AA BA CA DA EA FA 8B 9B AB BB CB DB EB FB
    B2 B3 B4 B5 B6 B7 B8 B9 6A 70 B0 B1 41 51 4A E1
";

const TABLE_7: &str = "
    00 01 02 03 9C 09 86 7F 97 8D 8E 0B 0C 0D 0E 0F
    10 11 12 13 9D 85 08 87 18 19 92 8F 1C 1D 1E 1F
    80 81 82 83 84 0A 17 1B 88 89 8A 8B 8C 05 06 07
    90 91 16 93 94 95 96 04 98 99 9A 9B 14 15 9E 1A
    20 FC C0 C1 C2 C3 C4 C5 C6 C7 FE 2E 3C 28 2B 7C
    26 FD C8 C9 CA CB CC CD CE CF 21 24 2A 29 3B 5E
    2D 2F D0 D1 D2 D3 D4 D5 D6 D7 F8 2C 25 5F 3E 3F
    F9 D8 D9 DA DB DC DD DE DF 60 3A 23 40 27 2D 22
    A0 61 62 63 64 65 66 67 68 69 EO E8 A1 A2 A3 A4
    A5 6A 6B 6C 6D 6E 6F 70 71 72 E1 E9 A6 A7 A8 A9
    AA 7E 73 74 75 76 77 78 79 7A E2 EA AB 5B AC AD
    FA FB F0 F1 F2 F3 F4 F5 F6 F7 E3 EB AE 5D AF B0
    7B 41 42 43 44 45 46 47 48 49 E4 EC B1 B2 B3 B4
    7D 4A 4B 4C 4D 4E 4F 50 51 52 E5 ED B5 B6 B7 B8
    5C FF 53 54 55 56 57 58 59 5A E6 EE B9 BA BB BC
    30 31 32 33 34 35 36 37 38 39 E7 EF BD BE BF 9F
";

/// Table 7's entries that are not those of table 2, which document 01 repeats:
/// a wrong digit, and the letter O for the digit 0.
const TABLE_7_MISPRINTS: [(usize, &str); 2] = [(0x7E, "2D"), (0x8A, "EO")];

/// 001's byte maps, entry by entry: the report's table 2 in both directions
/// and the annex's tables 6 and 7.
fn report_byte_maps(group: &mut Group) {
    let mut compare = |name: &str, table: &str, map: &[u8; 256], misprints: &[(usize, &str)]| {
        let entries: Vec<&str> = table.split_whitespace().collect();
        group.check(entries.len() == 256, || {
            format!("001 {name} has {} entries", entries.len())
        });
        for (byte, (&printed, mapped)) in entries.iter().zip(map).enumerate() {
            let reference = format!("{mapped:02X}");
            let misprinted = misprints.contains(&(byte, printed));
            group.check((printed == reference) != misprinted, || {
                format!("001 {name} has {printed} for {byte:02X}, the reference {reference}")
            });
        }
    };
    compare("table 2", TABLE_2_TO_UTF_EBCDIC, &I8_TO_UTF_EBCDIC, &[]);
    compare("table 2", TABLE_2_TO_I8, &UTF_EBCDIC_TO_I8, &[]);
    compare("table 6", TABLE_6, &I8_TO_UTF_EBCDIC, &[]);
    compare("table 7", TABLE_7, &UTF_EBCDIC_TO_I8, &TABLE_7_MISPRINTS);

    // The library's own table shows in what it reads: a single byte is its
    // value, a trailing byte the low five bits, a lead the bits above.
    for (utf_ebcdic, &byte) in UTF_EBCDIC_TO_I8.iter().enumerate() {
        let source = format!("001 table 2, {utf_ebcdic:02X}");
        let utf_ebcdic = utf_ebcdic as u32;
        match UtfEbcdic::role(utf_ebcdic as u8) {
            Role::Single => {
                one_character::<UtfEbcdic>(group, source, byte.into(), &[utf_ebcdic]);
            }
            Role::Trailing => {
                let value = 0x20 * 0x10 + u32::from(byte - 0xA0);
                let lead = from_i8(&[0xD0])[0];
                one_character::<UtfEbcdic>(group, source, value, &[lead, utf_ebcdic]);
            }
            Role::Lead(length) => {
                let mut bytes = vec![utf_ebcdic];
                bytes.extend(from_i8(&vec![0xBF; length - 1]));
                let row = &I8.rows[length - 1];
                let trailing_values = 1 << (5 * (length as u32 - 1));
                let value = (u32::from(byte - row.first_lead) + 1) * trailing_values - 1;
                if value >= row.lowest {
                    one_character::<UtfEbcdic>(group, source, value, &bytes);
                } else {
                    three_ways::<UtfEbcdic>(group, source, &bytes, &[mark(5, length)]);
                }
            }
            Role::Unused => {
                group.check(false, || format!("{source}: no UTF-EBCDIC byte is unused"));
            }
        }
    }
}

/// The shadow flags of table 3, entry by entry.
fn report_table_3(group: &mut Group) {
    let entries: Vec<&str> = TABLE_3_FLAGS.split_whitespace().collect();
    group.check(entries.len() == 256, || {
        format!("001 table 3 has {} entries", entries.len())
    });
    for (byte, &printed) in (0..=0xFF).zip(&entries) {
        let flag = flag(byte);
        group.check(printed == flag.to_string(), || {
            format!("001 table 3 has {printed} for {byte:02X}, document 01's rule gives {flag}")
        });
    }
}

/// The comparison of I8 with UTF-8: values, leads and trailing bytes.
///
/// Misprint: it ends three bytes of I8 at 7FFF and starts four at 8000; by the
/// bit layout that is 3FFF and 4000.
fn report_table_4(group: &mut Group) {
    let source = "001 table 4";
    let i8_ranges = [
        (0x0, 0x9F),
        (0xA0, 0x3FF),
        (0x400, 0x3FFF),
        (0x4000, 0x3_FFFF),
        (0x4_0000, 0x3F_FFFF),
        (0x40_0000, 0x3FF_FFFF),
        (0x400_0000, 0x7FFF_FFFF),
    ];
    let utf_8_ranges = [
        (0x0, 0x7F),
        (0x80, 0x7FF),
        (0x800, 0xFFFF),
        (0x1_0000, 0x1F_FFFF),
        (0x20_0000, 0x3FF_FFFF),
        (0x400_0000, 0x7FFF_FFFF),
    ];
    for (index, (low, high)) in i8_ranges.into_iter().enumerate() {
        for value in samples(low, high) {
            reads_back::<UtfEbcdic>(group, source, value, index + 1);
        }
    }
    for (index, (low, high)) in utf_8_ranges.into_iter().enumerate() {
        for value in samples(low, high) {
            reads_back::<FssUtf>(group, source, value, index + 1);
        }
    }

    let leads = [
        (2, 0xC0, 0xDF),
        (3, 0xE0, 0xEF),
        (4, 0xF0, 0xF7),
        (5, 0xF8, 0xFB),
        (6, 0xFC, 0xFD),
    ];
    for (length, first, last) in leads {
        for lead in first..=last {
            let role = FssUtf::role(lead);
            group.check(role == Role::Lead(length), || {
                format!("{source}: {lead:02X} is {role:?}")
            });
            let role = UtfEbcdic::role(I8_TO_UTF_EBCDIC[usize::from(lead)]);
            group.check(role == Role::Lead(length), || {
                format!("{source}: I8 {lead:02X} is {role:?}")
            });
        }
    }
    for lead in [0xFE_u8, 0xFF] {
        three_ways::<FssUtf>(group, source, &[lead.into()], &[mark(4, 1)]);
        let role = UtfEbcdic::role(I8_TO_UTF_EBCDIC[usize::from(lead)]);
        group.check(role == Role::Lead(7), || {
            format!("{source}: I8 {lead:02X} is {role:?}")
        });
    }
    let trailing = |role: fn(u8) -> Role| {
        (0..=0xFF_u8)
            .filter(|&byte| role(byte) == Role::Trailing)
            .count()
    };
    let counts = (trailing(UtfEbcdic::role), trailing(FssUtf::role));
    group.check(counts == (32, 64), || {
        format!("{source}: {counts:?} trailing bytes")
    });
}

/// A value is read back from its shortest sequence, of this length.
fn reads_back<F: ToOthers>(group: &mut Group, source: &str, value: u32, length: usize) {
    let bytes: Vec<u32> = match F::shortest(value) {
        Some(shortest) => shortest.iter().map(|&unit| unit.into()).collect(),
        None => Vec::new(),
    };
    group.check(bytes.len() == length, || {
        format!(
            "{source}: {value:X} has {} bytes in {}, not {length}",
            bytes.len(),
            F::NAME
        )
    });
    one_value::<F>(group, source, value, &bytes);
}

/// The annex's formats and its examples in binary and hexadecimal.
///
/// Misprints: table 1's patterns lack digits. Table 2 has 0C00 for E1 A0 A0,
/// 000C0000 for F8 A8 A0 A0 A0 and 0C000000 for FE A2 A0 A0 A0 A0 A0; by the
/// bit layout, and in table 3, these are 400, 40000 and 4000000.
fn annex_tables_1_to_3(group: &mut Group) {
    let maxima = [
        0x9F,
        0x3FF,
        0x3FFF,
        0x3_FFFF,
        0x3F_FFFF,
        0x3FF_FFFF,
        0x7FFF_FFFF,
    ];
    for (index, maximum) in maxima.into_iter().enumerate() {
        reads_back::<UtfEbcdic>(group, "001 annex table 1", maximum, index + 1);
        if maximum < 0x7FFF_FFFF {
            reads_back::<UtfEbcdic>(group, "001 annex table 1", maximum + 1, index + 2);
        }
    }

    let binary: [(u32, &str); 14] = [
        (0x0000_0001, "00000001"),
        (0x0000_009F, "10011111"),
        (0x0000_00A0, "11000101 10100000"),
        (0x0000_03FF, "11011111 10111111"),
        (0x0000_0400, "11100001 10100000 10100000"),
        (0x0000_3FFF, "11101111 10111111 10111111"),
        (0x0000_4000, "11110000 10110000 10100000 10100000"),
        (0x0003_FFFF, "11110111 10111111 10111111 10111111"),
        (0x0004_0000, "11111000 10101000 10100000 10100000 10100000"),
        (0x003F_FFFF, "11111011 10111111 10111111 10111111 10111111"),
        (
            0x0040_0000,
            "11111100 10100100 10100000 10100000 10100000 10100000",
        ),
        (
            0x03FF_FFFF,
            "11111101 10111111 10111111 10111111 10111111 10111111",
        ),
        (
            0x0400_0000,
            "11111110 10100010 10100000 10100000 10100000 10100000 10100000",
        ),
        (
            0x7FFF_FFFF,
            "11111111 10111111 10111111 10111111 10111111 10111111 10111111",
        ),
    ];
    for (value, bytes) in binary {
        // A pattern without free bits is filled with nothing.
        one_character::<UtfEbcdic>(group, "001 annex table 2", value, &from_i8(&fill(bytes, 0)));
    }

    let hexadecimal: [(u32, &[u32]); 14] = [
        (0x0000_0001, &[0x01]),
        (0x0000_009F, &[0x9F]),
        (0x0000_00A0, &[0xC5, 0xA0]),
        (0x0000_03FF, &[0xDF, 0xBF]),
        (0x0000_0400, &[0xE1, 0xA0, 0xA0]),
        (0x0000_3FFF, &[0xEF, 0xBF, 0xBF]),
        (0x0000_4000, &[0xF0, 0xB0, 0xA0, 0xA0]),
        (0x0003_FFFF, &[0xF7, 0xBF, 0xBF, 0xBF]),
        (0x0004_0000, &[0xF8, 0xA8, 0xA0, 0xA0, 0xA0]),
        (0x003F_FFFF, &[0xFB, 0xBF, 0xBF, 0xBF, 0xBF]),
        (0x0040_0000, &[0xFC, 0xA4, 0xA0, 0xA0, 0xA0, 0xA0]),
        (0x03FF_FFFF, &[0xFD, 0xBF, 0xBF, 0xBF, 0xBF, 0xBF]),
        (0x0400_0000, &[0xFE, 0xA2, 0xA0, 0xA0, 0xA0, 0xA0, 0xA0]),
        (0x7FFF_FFFF, &[0xFF, 0xBF, 0xBF, 0xBF, 0xBF, 0xBF, 0xBF]),
    ];
    for (value, bytes) in hexadecimal {
        one_character::<UtfEbcdic>(group, "001 annex table 3", value, &from_i8(bytes));
    }
}

/// The annex's table 4: the I8 octets of a value, by division.
fn annex_octets(x: u32) -> Vec<u32> {
    let power = |exponent: u32| 2_u32.pow(exponent);
    let continuing = |exponent: u32| 0xA0 + x / power(exponent) % power(5);
    match x {
        0x0..=0x9F => vec![x],
        0xA0..=0x3FF => vec![0xC0 + x / power(5), continuing(0)],
        0x400..=0x3FFF => vec![0xE0 + x / power(10), continuing(5), continuing(0)],
        0x4000..=0x3_FFFF => {
            vec![
                0xF0 + x / power(15),
                continuing(10),
                continuing(5),
                continuing(0),
            ]
        }
        0x4_0000..=0x3F_FFFF => vec![
            0xF8 + x / power(20),
            continuing(15),
            continuing(10),
            continuing(5),
            continuing(0),
        ],
        0x40_0000..=0x3FF_FFFF => vec![
            0xFC + x / power(25),
            continuing(20),
            continuing(15),
            continuing(10),
            continuing(5),
            continuing(0),
        ],
        _ => vec![
            0xFE + x / power(30),
            continuing(25),
            continuing(20),
            continuing(15),
            continuing(10),
            continuing(5),
            continuing(0),
        ],
    }
}

/// The annex's table 5: the value of I8 octets, by multiplication.
fn annex_value(octets: &[u32]) -> Option<u32> {
    let power = |exponent: u32| 2_u32.pow(exponent);
    let base = match (octets[0], octets.len()) {
        (z @ 0x00..=0x9F, 1) => return Some(z),
        (0xC5..=0xDF, 2) => 0xC0,
        (0xE1..=0xEF, 3) => 0xE0,
        (0xF0..=0xF7, 4) => 0xF0,
        (0xF8..=0xFB, 5) => 0xF8,
        (0xFC..=0xFD, 6) => 0xFC,
        (0xFE..=0xFF, 7) => 0xFE,
        _ => return None,
    };
    let highest = 5 * (octets.len() as u32 - 1);
    let first = (octets[0] - base) * power(highest);
    let continuing: u32 = octets[1..]
        .iter()
        .zip(
            (0..highest)
                .step_by(5)
                .collect::<Vec<_>>()
                .into_iter()
                .rev(),
        )
        .map(|(octet, exponent)| (octet - 0xA0) * power(exponent))
        .sum();
    Some(first + continuing)
}

fn annex_formulas(group: &mut Group) {
    let mut random = Random::new(5);
    let mut values: Vec<u32> = I8
        .rows
        .iter()
        .flat_map(|row| [row.lowest, row.highest])
        .collect();
    values.extend((0..20_000).map(|_| UtfEbcdic::value(&mut random)));
    for value in values {
        let octets = annex_octets(value);
        one_character::<UtfEbcdic>(group, "001 annex table 4", value, &from_i8(&octets));
        let back = annex_value(&octets);
        group.check(back == Some(value), || {
            format!("001 annex table 5: {octets:X?} is {back:X?}, not {value:X}")
        });
    }
    // The octets that the annex lists as first ones are those that begin a
    // character; C0 to C4 and E0 it calls not used.
    for first in 0..=0xFF_u32 {
        let used = (0xA0..=0xBF).any(|second| {
            let text = from_i8(&[first, second, 0xBF, 0xBF, 0xBF, 0xBF, 0xBF]);
            let text: Vec<u8> = text.iter().map(|&byte| byte as u8).collect();
            UtfEbcdic::item_at(&text, 0).kind == CHARACTER
        });
        let listed = matches!(first, 0x00..=0x9F | 0xC5..=0xDF | 0xE1..=0xFF);
        group.check(used == listed, || {
            format!(
                "001 annex, clause 3: {first:02X} is listed: {listed}, starts a character: {used}"
            )
        });
    }
}

/// The annex's clause 10: the three kinds of malformed sequences.
fn annex_malformed(group: &mut Group) {
    let source = "001 annex, clause 10";
    for row in &I8.rows[1..] {
        let lead: u32 = row.last_lead.into();
        // A first octet without the correct number of continuing octets.
        for taken in 0..row.length - 1 {
            let mut octets = vec![lead];
            octets.extend(vec![0xBF; taken]);
            octets.push(0x41);
            let read = [mark(2, 1 + taken), character(0x41, 1)];
            three_ways::<UtfEbcdic>(group, source, &from_i8(&octets), &read);
        }
        // Continuing octets that no sequence requires.
        let mut octets = vec![lead];
        octets.extend(vec![0xBF; row.length]);
        let read = [character(row.highest, row.length), mark(3, 1)];
        three_ways::<UtfEbcdic>(group, source, &from_i8(&octets), &read);
    }
    // An octet that the annex calls invalid; document 01 makes it a lead.
    for invalid in [0xC0, 0xC1, 0xC2, 0xC3, 0xC4, 0xE0] {
        three_ways::<UtfEbcdic>(group, source, &from_i8(&[invalid]), &[mark(2, 1)]);
    }
    // The same for FSS-UTF, by the words of 000's rule.
    for row in &FSS_UTF.rows[1..] {
        let mut octets = vec![row.last_lead.into()];
        octets.extend(vec![0xBF; row.length]);
        let read = [character(row.highest, row.length), mark(3, 1)];
        three_ways::<FssUtf>(group, source, &octets, &read);
    }
}
