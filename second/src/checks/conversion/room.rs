//! The section "Room": texts whose result is as long as its bound allows.
//! That no result is longer is checked with every accepted text.

use super::{each_pair, three_ways};
use crate::library::LinkedTo;
use crate::random::Drawn;
use crate::reference::{convert, most_units, Form, LONGEST_TEXT};
use crate::report::Group;

pub fn check(group: &mut Group) {
    let mut tried = 0;
    let mut met = 0;
    each_pair!(lengths(group, &mut tried, &mut met));
    group.note(format!(
        "{met} of {tried} lengths, even and odd, meet the bound of their pair"
    ));
}

/// The lowest value whose encoding grows the most from form to form.
fn most_growing<F: Form, G: Form>() -> u32 {
    match (F::NAME, G::NAME) {
        ("FSS-UTF", "UTF-EBCDIC") => 0x400,
        ("UTF-EBCDIC", "FSS-UTF") => 0x80,
        ("UTF-16", "FSS-UTF") => 0x800,
        ("UTF-16", "UTF-EBCDIC") => 0x4000,
        ("UCS-4", "FSS-UTF" | "UTF-EBCDIC") => 0x400_0000,
        ("UCS-4", "UTF-16") => 0x1_0000,
        _ => 0,
    }
}

/// Texts of the characters that grow the most. A unit that is left over, as at
/// an odd length of FSS-UTF to UTF-EBCDIC, is a single one and stays one.
fn lengths<F: LinkedTo<G> + Drawn, G: LinkedTo<F>>(
    group: &mut Group,
    tried: &mut usize,
    met: &mut usize,
) {
    let single = F::encode(0).expect("every form holds it");
    let growing = F::encode(most_growing::<F, G>()).expect("the form holds it");
    let lengths = (0..=200).chain([255, 256, 257, 4_095, 4_096, 4_097]);
    for n in lengths.chain([LONGEST_TEXT - 1, LONGEST_TEXT]) {
        let mut text = growing.repeat(n / growing.len());
        text.extend(single.repeat(n % growing.len()));
        let most = most_units::<F, G>(n);
        let measured = F::measure(&text).units;
        let converted = F::convert(&text, &mut vec![G::unit(0); most]).units;
        let counts = [measured, converted];
        let meets = text.len() == n && counts == [most as u64; 2];
        *tried += 1;
        *met += usize::from(meets);
        group.check(meets, || {
            format!(
                "{} to {}: {n} units have {counts:?}, not {most}",
                F::NAME,
                G::NAME
            )
        });
        three_ways::<F, G>(group, "room", &text, &convert::<F, G>(&text));
    }
}
