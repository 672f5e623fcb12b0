//! What document 01 says of conversion, point by point.

use super::{each_pair, three_ways, ToOthers};
use crate::checks::{each_form, from_i8};
use crate::library::LinkedTo;
use crate::random::Drawn;
use crate::reference::{Converted, Form, FssUtf, Refusal, Ucs4, Utf16, UtfEbcdic};
use crate::report::Group;

/// A value in UCS-4, FSS-UTF, I8 and UTF-16, which has none for some.
type Spelled = (
    &'static str,
    &'static str,
    &'static str,
    Option<&'static str>,
);

/// The acceptance points, the lowest and highest value of each length in each
/// form, the values beside the surrogates, and those beside FFFE and FFFF or
/// like them.
const SPELLED: [Spelled; 36] = [
    ("0", "00", "00", Some("0000")),
    ("41", "41", "41", Some("0041")),
    ("7F", "7F", "7F", Some("007F")),
    ("80", "C2 80", "80", Some("0080")),
    ("9F", "C2 9F", "9F", Some("009F")),
    ("A0", "C2 A0", "C5 A0", Some("00A0")),
    ("A9", "C2 A9", "C5 A9", Some("00A9")),
    ("3FF", "CF BF", "DF BF", Some("03FF")),
    ("400", "D0 80", "E1 A0 A0", Some("0400")),
    ("7FF", "DF BF", "E1 BF BF", Some("07FF")),
    ("800", "E0 A0 80", "E2 A0 A0", Some("0800")),
    ("2260", "E2 89 A0", "E8 B3 A0", Some("2260")),
    ("3FFF", "E3 BF BF", "EF BF BF", Some("3FFF")),
    ("4000", "E4 80 80", "F0 B0 A0 A0", Some("4000")),
    ("D7FF", "ED 9F BF", "F1 B5 BF BF", Some("D7FF")),
    ("E000", "EE 80 80", "F1 B8 A0 A0", Some("E000")),
    ("FDD0", "EF B7 90", "F1 BF AE B0", Some("FDD0")),
    ("FEFF", "EF BB BF", "F1 BF B7 BF", Some("FEFF")),
    ("FFFD", "EF BF BD", "F1 BF BF BD", Some("FFFD")),
    ("FFFE", "EF BF BE", "F1 BF BF BE", Some("FFFE")),
    ("FFFF", "EF BF BF", "F1 BF BF BF", Some("FFFF")),
    ("10000", "F0 90 80 80", "F2 A0 A0 A0", Some("D800 DC00")),
    ("1FFFE", "F0 9F BF BE", "F3 BF BF BE", Some("D83F DFFE")),
    ("1FFFF", "F0 9F BF BF", "F3 BF BF BF", Some("D83F DFFF")),
    ("3FFFF", "F0 BF BF BF", "F7 BF BF BF", Some("D8BF DFFF")),
    ("40000", "F1 80 80 80", "F8 A8 A0 A0 A0", Some("D8C0 DC00")),
    ("10FFFE", "F4 8F BF BE", "F9 A1 BF BF BE", Some("DBFF DFFE")),
    ("10FFFF", "F4 8F BF BF", "F9 A1 BF BF BF", Some("DBFF DFFF")),
    ("110000", "F4 90 80 80", "F9 A2 A0 A0 A0", None),
    ("1FFFFF", "F7 BF BF BF", "F9 BF BF BF BF", None),
    ("200000", "F8 88 80 80 80", "FA A0 A0 A0 A0", None),
    ("3FFFFF", "F8 8F BF BF BF", "FB BF BF BF BF", None),
    ("400000", "F8 90 80 80 80", "FC A4 A0 A0 A0 A0", None),
    ("3FFFFFF", "FB BF BF BF BF", "FD BF BF BF BF BF", None),
    ("4000000", "FC 84 80 80 80 80", "FE A2 A0 A0 A0 A0 A0", None),
    (
        "7FFFFFFF",
        "FD BF BF BF BF BF",
        "FF BF BF BF BF BF BF",
        None,
    ),
];

pub fn check(group: &mut Group) {
    each_pair!(spelled(group));
    each_pair!(spelled_together(group));
    starred(group);
    refused(group);
    surrogates(group);
    turned_away(group);
    each_form!(empty(group));
}

fn numbers(hex: &str) -> Vec<u32> {
    hex.split(' ')
        .map(|number| u32::from_str_radix(number, 16).expect("a number in hex"))
        .collect()
}

/// The units that a row of the table has in a form.
fn units<F: Form>((ucs_4, fss_utf, i8_bytes, utf_16): Spelled) -> Option<Vec<F::Unit>> {
    let numbers = match F::NAME {
        FssUtf::NAME => numbers(fss_utf),
        UtfEbcdic::NAME => from_i8(&numbers(i8_bytes)),
        Utf16::NAME => numbers(utf_16?),
        _ => numbers(ucs_4),
    };
    Some(numbers.into_iter().map(F::unit).collect())
}

/// Request 110: "Document 01's case of FFFF becomes 12 in conversion."
fn is_refused((ucs_4, ..): Spelled) -> bool {
    ucs_4 == "FFFE" || ucs_4 == "FFFF"
}

/// What a row gives in the form `G`, or the fault by which it is refused;
/// UTF-16 has no unit for some.
fn given<G: Form>(row: Spelled) -> Result<Vec<G::Unit>, u32> {
    if is_refused(row) {
        return Err(12);
    }
    units::<G>(row).ok_or(6)
}

/// Each row of the table, from form to form; what is refused is so at 0.
fn spelled<F: LinkedTo<G> + Drawn, G: LinkedTo<F>>(group: &mut Group) {
    for row in SPELLED {
        if let Some(text) = units::<F>(row) {
            let expected: Converted<G> =
                given::<G>(row).map_err(|fault| Refusal { fault, offset: 0 });
            three_ways::<F, G>(group, "both sides of limits", &text, &expected);
        }
    }
}

/// The rows one behind the other: first those that are accepted, then those
/// that UTF-16 may not have as well, then all that the source has.
fn spelled_together<F: LinkedTo<G> + Drawn, G: LinkedTo<F>>(group: &mut Group) {
    let source = "both sides of limits, one behind the other";
    let mut together = |kept: fn(Spelled) -> bool| {
        let mut text = Vec::new();
        let mut expected: Converted<G> = Ok(Vec::new());
        for row in SPELLED.into_iter().filter(|&row| kept(row)) {
            let Some(from) = units::<F>(row) else {
                continue;
            };
            match (&mut expected, given::<G>(row)) {
                (Ok(result), Ok(to)) => result.extend(to),
                (Ok(_), Err(fault)) => {
                    expected = Err(Refusal {
                        fault,
                        offset: text.len(),
                    });
                }
                (Err(_), _) => {}
            }
            text.extend(from);
        }
        three_ways::<F, G>(group, source, &text, &expected);
        expected.err().map(|refusal| refusal.fault)
    };
    let refused_by = [
        together(|row| !is_refused(row) && units::<Utf16>(row).is_some()),
        together(|row| !is_refused(row)),
        together(|_| true),
    ];
    let to_utf_16 = (G::NAME == Utf16::NAME).then_some(6);
    group.check(refused_by == [None, to_utf_16, Some(12)], || {
        format!(
            "{source}: {} to {} is refused by {refused_by:?}",
            F::NAME,
            G::NAME
        )
    });
}

/// A text's conversion to one other form, both as a paper writes them.
fn gives<F: LinkedTo<G> + Drawn, G: LinkedTo<F>>(
    group: &mut Group,
    source: &str,
    text: &[u32],
    expected: Result<&[u32], (u32, usize)>,
) {
    let text: Vec<F::Unit> = text.iter().map(|&unit| F::unit(unit)).collect();
    let expected: Converted<G> = match expected {
        Ok(result) => Ok(result.iter().map(|&unit| G::unit(unit)).collect()),
        Err((fault, offset)) => Err(Refusal { fault, offset }),
    };
    three_ways::<F, G>(group, source, &text, &expected);
}

/// The points marked with a star that are characters, to each other form.
fn starred(group: &mut Group) {
    let source = "acceptance point";

    let bytes = [0xC2, 0xA9];
    gives::<FssUtf, UtfEbcdic>(group, source, &bytes, Ok(&[0x47, 0x9F]));
    gives::<FssUtf, Utf16>(group, source, &bytes, Ok(&[0xA9]));
    gives::<FssUtf, Ucs4>(group, source, &bytes, Ok(&[0xA9]));

    let bytes = [0xE2, 0x89, 0xA0];
    gives::<FssUtf, UtfEbcdic>(group, source, &bytes, Ok(&[0x8B, 0xCE, 0x80]));
    gives::<FssUtf, Utf16>(group, source, &bytes, Ok(&[0x2260]));
    gives::<FssUtf, Ucs4>(group, source, &bytes, Ok(&[0x2260]));

    let highest = [0xFD, 0xBF, 0xBF, 0xBF, 0xBF, 0xBF];
    let exchanged = [0xE1, 0xFE, 0xFE, 0xFE, 0xFE, 0xFE, 0xFE];
    gives::<FssUtf, UtfEbcdic>(group, source, &highest, Ok(&exchanged));
    gives::<FssUtf, Utf16>(group, source, &highest, Err((6, 0)));
    gives::<FssUtf, Ucs4>(group, source, &highest, Ok(&[0x7FFF_FFFF]));
    gives::<UtfEbcdic, FssUtf>(group, source, &exchanged, Ok(&highest));
    gives::<UtfEbcdic, Utf16>(group, source, &exchanged, Err((6, 0)));
    gives::<UtfEbcdic, Ucs4>(group, source, &exchanged, Ok(&[0x7FFF_FFFF]));
    gives::<Ucs4, FssUtf>(group, source, &[0x7FFF_FFFF], Ok(&highest));
    gives::<Ucs4, UtfEbcdic>(group, source, &[0x7FFF_FFFF], Ok(&exchanged));
    gives::<Ucs4, Utf16>(group, source, &[0x7FFF_FFFF], Err((6, 0)));

    let utf_ebcdic: [(&[u32], &[u32], u32); 4] = [
        (&[0x47, 0x80], &[0xC2, 0xA0], 0xA0),
        (&[0x9A, 0x80, 0x80], &[0xD0, 0x80], 0x400),
        (&[0xB2, 0xBF, 0x80, 0x80], &[0xE4, 0x80, 0x80], 0x4000),
        (&[0xC1], &[0x41], 0x41),
    ];
    for (bytes, fss_utf, value) in utf_ebcdic {
        gives::<UtfEbcdic, FssUtf>(group, source, bytes, Ok(fss_utf));
        gives::<UtfEbcdic, Utf16>(group, source, bytes, Ok(&[value]));
        gives::<UtfEbcdic, Ucs4>(group, source, bytes, Ok(&[value]));
    }

    let units = [0xD800, 0xDC00];
    gives::<Utf16, FssUtf>(group, source, &units, Ok(&[0xF0, 0x90, 0x80, 0x80]));
    gives::<Utf16, UtfEbcdic>(group, source, &units, Ok(&[0xB4, 0x80, 0x80, 0x80]));
    gives::<Utf16, Ucs4>(group, source, &units, Ok(&[0x1_0000]));
}

/// The texts of document 01 that are refused whatever the target, with the
/// mark's place.
fn refused(group: &mut Group) {
    let mut refused = |source: &str, texts: &[(&[u32], u32, usize)]| {
        for &(text, fault, offset) in texts {
            gives::<FssUtf, UtfEbcdic>(group, source, text, Err((fault, offset)));
            gives::<FssUtf, Utf16>(group, source, text, Err((fault, offset)));
            gives::<FssUtf, Ucs4>(group, source, text, Err((fault, offset)));
        }
    };
    refused(
        "acceptance point",
        &[
            (&[0xC0, 0x80], 5, 0),
            (&[0xFE], 4, 0),
            (&[0xE2, 0x89, 0x41], 2, 0),
        ],
    );
    refused(
        "the listing program's example",
        &[(&[0x41, 0xC2, 0xA9, 0x80, 0xE2, 0x89, 0x0A], 3, 3)],
    );
    refused(
        "error of other converters",
        &[
            (&[0xE2, 0x89, 0xC2, 0xA9], 2, 0),
            (&[0x41, 0xE2, 0x89, 0xC2, 0xA9], 2, 1),
            (&[0xC2, 0xE2, 0x89, 0xA0], 2, 0),
        ],
    );

    for low in [0xDC00, 0xDFFF] {
        gives::<Utf16, FssUtf>(group, "acceptance point", &[low], Err((3, 0)));
        gives::<Utf16, UtfEbcdic>(group, "acceptance point", &[low], Err((3, 0)));
        gives::<Utf16, Ucs4>(group, "acceptance point", &[low], Err((3, 0)));
    }
    for unit in [0x8000_0000, 0xFFFF_FFFF] {
        gives::<Ucs4, FssUtf>(group, "both sides of limits", &[unit], Err((4, 0)));
        gives::<Ucs4, UtfEbcdic>(group, "both sides of limits", &[unit], Err((4, 0)));
        gives::<Ucs4, Utf16>(group, "both sides of limits", &[unit], Err((4, 0)));
    }
    // "I8 lead E0 with two trailing bytes is taken: it's always too long."
    for second in 0xA0..=0xBF {
        for third in 0xA0..=0xBF {
            let source = "error of other converters";
            let bytes = from_i8(&[0xE0, second, third]);
            gives::<UtfEbcdic, FssUtf>(group, source, &bytes, Err((5, 0)));
            gives::<UtfEbcdic, Utf16>(group, source, &bytes, Err((5, 0)));
            gives::<UtfEbcdic, Ucs4>(group, source, &bytes, Err((5, 0)));
        }
    }
}

/// Request 104: "such a value in UCS-4, FSS-UTF or UTF-EBCDIC is a fault",
/// whatever the target, and "fault 6 is left with values above 10FFFF". Two of
/// them are no pair, in whichever order.
fn surrogates(group: &mut Group) {
    let spelled = [
        (0xD800, [0xED, 0xA0, 0x80], [0xF1, 0xB6, 0xA0, 0xA0]),
        (0xD801, [0xED, 0xA0, 0x81], [0xF1, 0xB6, 0xA0, 0xA1]),
        (0xDBFF, [0xED, 0xAF, 0xBF], [0xF1, 0xB6, 0xBF, 0xBF]),
        (0xDC00, [0xED, 0xB0, 0x80], [0xF1, 0xB7, 0xA0, 0xA0]),
        (0xDFFE, [0xED, 0xBF, 0xBE], [0xF1, 0xB7, 0xBF, 0xBE]),
        (0xDFFF, [0xED, 0xBF, 0xBF], [0xF1, 0xB7, 0xBF, 0xBF]),
    ];
    for (value, fss_utf, i8_bytes) in spelled {
        let utf_ebcdic = from_i8(&i8_bytes);
        refused_everywhere(group, &[value], &fss_utf, &utf_ebcdic, (0, 0, 0));
        for (other, other_fss_utf, other_i8_bytes) in spelled {
            let bytes = [fss_utf, other_fss_utf].concat();
            let exchanged = from_i8(&[i8_bytes, other_i8_bytes].concat());
            refused_everywhere(group, &[value, other], &bytes, &exchanged, (0, 0, 0));
        }
        // Behind 10000, and before it and a value that UTF-16 cannot hold.
        let bytes = [
            &[0xF0, 0x90, 0x80, 0x80][..],
            &fss_utf,
            &[0xF0, 0x90, 0x80, 0x80, 0xF4, 0x90, 0x80, 0x80],
        ];
        let exchanged = [
            &[0xF2, 0xA0, 0xA0, 0xA0][..],
            &i8_bytes,
            &[0xF2, 0xA0, 0xA0, 0xA0, 0xF9, 0xA2, 0xA0, 0xA0, 0xA0],
        ];
        refused_everywhere(
            group,
            &[0x1_0000, value, 0x1_0000, 0x11_0000],
            &bytes.concat(),
            &from_i8(&exchanged.concat()),
            (1, 4, 4),
        );
    }

    // A value that UTF-16 cannot hold comes first where it stands first.
    gives::<Ucs4, Utf16>(group, "request 104", &[0x11_0000, 0xD800], Err((6, 0)));
    gives::<Ucs4, Utf16>(group, "request 104", &[0xD800, 0x11_0000], Err((10, 0)));
    // "a too-long sequence for D800 stays 5."
    let too_long = [0xF0, 0x8D, 0xA0, 0x80];
    gives::<FssUtf, Utf16>(group, "request 104", &too_long, Err((5, 0)));
    gives::<FssUtf, UtfEbcdic>(group, "request 104", &too_long, Err((5, 0)));
    gives::<FssUtf, Ucs4>(group, "request 104", &too_long, Err((5, 0)));
}

/// The same values in UCS-4, FSS-UTF and UTF-EBCDIC are refused by 10, at these
/// places.
fn refused_everywhere(
    group: &mut Group,
    values: &[u32],
    fss_utf: &[u32],
    utf_ebcdic: &[u32],
    (in_ucs4, in_fss_utf, in_utf_ebcdic): (usize, usize, usize),
) {
    let source = "request 104";
    gives::<Ucs4, FssUtf>(group, source, values, Err((10, in_ucs4)));
    gives::<Ucs4, UtfEbcdic>(group, source, values, Err((10, in_ucs4)));
    gives::<Ucs4, Utf16>(group, source, values, Err((10, in_ucs4)));
    gives::<FssUtf, Ucs4>(group, source, fss_utf, Err((10, in_fss_utf)));
    gives::<FssUtf, UtfEbcdic>(group, source, fss_utf, Err((10, in_fss_utf)));
    gives::<FssUtf, Utf16>(group, source, fss_utf, Err((10, in_fss_utf)));
    gives::<UtfEbcdic, Ucs4>(group, source, utf_ebcdic, Err((10, in_utf_ebcdic)));
    gives::<UtfEbcdic, FssUtf>(group, source, utf_ebcdic, Err((10, in_utf_ebcdic)));
    gives::<UtfEbcdic, Utf16>(group, source, utf_ebcdic, Err((10, in_utf_ebcdic)));
}

/// Request 110: "Strict conversion and the measure shall refuse them from every
/// form", "tried after 11 and before 6 at the same place". Of two faults the
/// lower place decides, whatever the numbers.
fn turned_away(group: &mut Group) {
    let source = "request 110";
    let fss_utf: [(&[u32], u32, usize); 14] = [
        (&[0xEF, 0xBF, 0xBE], 12, 0),
        (&[0xEF, 0xBF, 0xBF], 12, 0),
        (&[0x41, 0xEF, 0xBF, 0xBF, 0x41], 12, 1),
        (&[0xEF, 0xBF, 0xBD, 0xEF, 0xBF, 0xBE], 12, 3),
        (&[0xF0, 0x90, 0x80, 0x80, 0xEF, 0xBF, 0xBF], 12, 4),
        // A surrogate before it and behind it.
        (&[0xED, 0xA0, 0x80, 0xEF, 0xBF, 0xBF], 10, 0),
        (&[0xEF, 0xBF, 0xBF, 0xED, 0xA0, 0x80], 12, 0),
        // A sequence cut short, and a trailing byte too many.
        (&[0xEF, 0xBF], 2, 0),
        (&[0xEF, 0xBF, 0xEF, 0xBF, 0xBF], 2, 0),
        (&[0xEF, 0xBF, 0xBF, 0xBF], 12, 0),
        (&[0xBF, 0xEF, 0xBF, 0xBF], 3, 0),
        (&[0xFF, 0xEF, 0xBF, 0xBE], 4, 0),
        // Sequences that are too long for them.
        (&[0xF0, 0x8F, 0xBF, 0xBF], 5, 0),
        (&[0xF8, 0x80, 0x8F, 0xBF, 0xBE], 5, 0),
    ];
    for (text, fault, offset) in fss_utf {
        gives::<FssUtf, UtfEbcdic>(group, source, text, Err((fault, offset)));
        gives::<FssUtf, Utf16>(group, source, text, Err((fault, offset)));
        gives::<FssUtf, Ucs4>(group, source, text, Err((fault, offset)));
    }

    let i8_bytes: [(&[u32], u32, usize); 8] = [
        (&[0xF1, 0xBF, 0xBF, 0xBE], 12, 0),
        (&[0xF1, 0xBF, 0xBF, 0xBF], 12, 0),
        (&[0x41, 0xF1, 0xBF, 0xBF, 0xBF, 0x41], 12, 1),
        // 3FFF passes.
        (&[0xEF, 0xBF, 0xBF, 0xF1, 0xBF, 0xBF, 0xBE], 12, 3),
        (&[0xF1, 0xB6, 0xA0, 0xA0, 0xF1, 0xBF, 0xBF, 0xBF], 10, 0),
        (&[0xF1, 0xBF, 0xBF, 0xBF, 0xF1, 0xB6, 0xA0, 0xA0], 12, 0),
        (&[0xF1, 0xBF, 0xBF], 2, 0),
        (&[0xF8, 0xA1, 0xBF, 0xBF, 0xBF], 5, 0),
    ];
    for (text, fault, offset) in i8_bytes {
        let text = from_i8(text);
        gives::<UtfEbcdic, FssUtf>(group, source, &text, Err((fault, offset)));
        gives::<UtfEbcdic, Utf16>(group, source, &text, Err((fault, offset)));
        gives::<UtfEbcdic, Ucs4>(group, source, &text, Err((fault, offset)));
    }

    let utf_16: [(&[u32], u32, usize); 8] = [
        (&[0xFFFE], 12, 0),
        (&[0xFFFF], 12, 0),
        // A mark of either byte order is no mark here.
        (&[0xFFFE, 0x0041], 12, 0),
        (&[0xFEFF, 0xFFFE], 12, 1),
        (&[0xD83F, 0xDFFF, 0xFFFF], 12, 2),
        (&[0xD83F, 0xFFFF, 0xDFFF], 2, 0),
        (&[0xFFFF, 0xD83F], 12, 0),
        (&[0xDFFF, 0xFFFF], 3, 0),
    ];
    for (text, fault, offset) in utf_16 {
        gives::<Utf16, FssUtf>(group, source, text, Err((fault, offset)));
        gives::<Utf16, UtfEbcdic>(group, source, text, Err((fault, offset)));
        gives::<Utf16, Ucs4>(group, source, text, Err((fault, offset)));
    }

    let ucs_4: [(&[u32], u32, usize); 8] = [
        (&[0xFFFE], 12, 0),
        (&[0xFFFF], 12, 0),
        (&[0x1_FFFE, 0x1_FFFF, 0xFDD0, 0xFFFF], 12, 3),
        (&[0xD800, 0xFFFF], 10, 0),
        (&[0xFFFF, 0xD800], 12, 0),
        (&[0x8000_FFFF, 0xFFFF], 4, 0),
        (&[0xFFFE, 0xFFFF_FFFE], 12, 0),
        (&[0xFFFF, 0x11_0000], 12, 0),
    ];
    for (text, fault, offset) in ucs_4 {
        gives::<Ucs4, FssUtf>(group, source, text, Err((fault, offset)));
        gives::<Ucs4, UtfEbcdic>(group, source, text, Err((fault, offset)));
        gives::<Ucs4, Utf16>(group, source, text, Err((fault, offset)));
    }

    // A value that UTF-16 cannot hold, before one that is turned away, is
    // refused by that form alone.
    let values = [0x11_0000, 0xFFFF];
    gives::<Ucs4, Utf16>(group, source, &values, Err((6, 0)));
    gives::<Ucs4, FssUtf>(group, source, &values, Err((12, 1)));
    gives::<Ucs4, UtfEbcdic>(group, source, &values, Err((12, 1)));
    let bytes = [0xF4, 0x90, 0x80, 0x80, 0xEF, 0xBF, 0xBF];
    gives::<FssUtf, Utf16>(group, source, &bytes, Err((6, 0)));
    gives::<FssUtf, Ucs4>(group, source, &bytes, Err((12, 4)));
    gives::<FssUtf, UtfEbcdic>(group, source, &bytes, Err((12, 4)));
    let bytes = from_i8(&[0xF9, 0xA2, 0xA0, 0xA0, 0xA0, 0xF1, 0xBF, 0xBF, 0xBF]);
    gives::<UtfEbcdic, Utf16>(group, source, &bytes, Err((6, 0)));
    gives::<UtfEbcdic, Ucs4>(group, source, &bytes, Err((12, 5)));
    gives::<UtfEbcdic, FssUtf>(group, source, &bytes, Err((12, 5)));

    // "EF BF BF in I8 is 3FFF and no concern of it."
    let bytes = from_i8(&[0xEF, 0xBF, 0xBF]);
    gives::<UtfEbcdic, FssUtf>(group, source, &bytes, Ok(&[0xE3, 0xBF, 0xBF]));
    gives::<UtfEbcdic, Utf16>(group, source, &bytes, Ok(&[0x3FFF]));
    gives::<UtfEbcdic, Ucs4>(group, source, &bytes, Ok(&[0x3FFF]));
}

/// "The empty text converts to the empty text."
fn empty<F: ToOthers>(group: &mut Group) {
    F::to_others(group, &"the empty text", &[], &[]);
}
