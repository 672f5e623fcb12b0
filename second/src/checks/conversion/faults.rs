//! Each fault at each place, and which of two comes first.

use super::{each_pair, three_ways};
use crate::library::LinkedTo;
use crate::random::Drawn;
use crate::reference::{
    exchanged, Form, FssUtf, Layout, Refusal, Ucs4, Utf16, UtfEbcdic, FSS_UTF, I8, LONGEST_TEXT,
};
use crate::report::Group;

pub fn check(group: &mut Group) {
    each_pair!(each_place(group));
    each_pair!(two_faults(group));
    too_long_first::<FssUtf, UtfEbcdic>(group, &FSS_UTF, |bytes| bytes.to_vec());
    too_long_first::<FssUtf, Utf16>(group, &FSS_UTF, |bytes| bytes.to_vec());
    too_long_first::<FssUtf, Ucs4>(group, &FSS_UTF, |bytes| bytes.to_vec());
    too_long_first::<UtfEbcdic, FssUtf>(group, &I8, |bytes| exchanged(bytes).to_vec());
    too_long_first::<UtfEbcdic, Utf16>(group, &I8, |bytes| exchanged(bytes).to_vec());
    too_long_first::<UtfEbcdic, Ucs4>(group, &I8, |bytes| exchanged(bytes).to_vec());
    each_pair!(far_places(group));
}

/// Units that are one item with a fault, where no trailing unit follows.
pub struct Faulty<U> {
    pub units: Vec<U>,
    pub fault: u32,
}

fn faulty<U>(units: Vec<U>, fault: u32) -> Faulty<U> {
    Faulty { units, fault }
}

/// A form of which faulty items can be listed.
pub trait Marked: Form {
    fn marked() -> Vec<Faulty<Self::Unit>>;
}

/// Every length of sequence cut short at each place, trailing bytes alone, and
/// spellings that are too long.
fn marked_bytes(layout: &Layout, to_form: fn(&[u8]) -> Vec<u8>) -> Vec<Faulty<u8>> {
    let mut marked = Vec::new();
    for trailing in [layout.first_trailing, layout.last_trailing] {
        marked.push(faulty(to_form(&[trailing]), 3));
        for row in &layout.rows[1..] {
            for lead in [row.first_lead, row.last_lead] {
                for taken in 0..row.length - 1 {
                    let cut = [&[lead][..], &vec![trailing; taken]].concat();
                    marked.push(faulty(to_form(&cut), 2));
                }
            }
        }
    }
    for row in &layout.rows[1..] {
        for value in [0, row.lowest - 1] {
            let bytes = layout.spell(row, value).expect("a value below the row's");
            marked.push(faulty(to_form(&bytes), 5));
        }
    }
    for surrogate in SURROGATES {
        let row = layout.rows.iter().find(|row| surrogate <= row.highest);
        let bytes = row.and_then(|row| layout.spell(row, surrogate));
        let bytes = bytes.expect("a row for it");
        marked.push(faulty(to_form(&bytes), 10));
    }
    marked
}

impl Marked for FssUtf {
    fn marked() -> Vec<Faulty<u8>> {
        let mut marked = marked_bytes(&FSS_UTF, |bytes| bytes.to_vec());
        marked.extend([0xFE, 0xFF].map(|byte| faulty(vec![byte], 4)));
        marked
    }
}

impl Marked for UtfEbcdic {
    fn marked() -> Vec<Faulty<u8>> {
        marked_bytes(&I8, |bytes| exchanged(bytes).to_vec())
    }
}

impl Marked for Utf16 {
    fn marked() -> Vec<Faulty<u16>> {
        vec![
            faulty(vec![0xD800], 2),
            faulty(vec![0xDBFF], 2),
            faulty(vec![0xDC00], 3),
            faulty(vec![0xDFFF], 3),
        ]
    }
}

impl Marked for Ucs4 {
    fn marked() -> Vec<Faulty<u32>> {
        let mut marked = vec![faulty(vec![0x8000_0000], 4), faulty(vec![0xFFFF_FFFF], 4)];
        marked.extend(SURROGATES.map(|surrogate| faulty(vec![surrogate], 10)));
        marked
    }
}

/// Values that are no characters.
const SURROGATES: [u32; 4] = [0xD800, 0xDBFF, 0xDC00, 0xDFFF];

/// Characters that are turned away, whatever the target.
const TURNED_AWAY: [u32; 2] = [0xFFFE, 0xFFFF];

/// Characters that UTF-16 cannot hold.
const NOT_IN_UTF_16: [u32; 5] = [0x11_0000, 0x1F_FFFF, 0x20_0000, 0x400_0000, 0x7FFF_FFFF];

/// The faulty items of a pair: the form's marks, characters that are turned
/// away, and those that the target cannot hold.
fn faulty_items<F: Marked, G: Form>() -> Vec<Faulty<F::Unit>> {
    let mut items = F::marked();
    items.extend(TURNED_AWAY.map(|value| faulty(good::<F>(&[value]), 12)));
    if G::NAME == Utf16::NAME {
        items.extend(NOT_IN_UTF_16.map(|value| faulty(good::<F>(&[value]), 6)));
    }
    items
}

/// The first faulty item of each fault.
pub fn one_of_each_fault<F: Marked, G: Form>() -> Vec<Faulty<F::Unit>> {
    let mut items = faulty_items::<F, G>();
    items.sort_by_key(|item| item.fault);
    items.dedup_by_key(|item| item.fault);
    items
}

/// Values that every conversion accepts, with every length among their
/// encodings that a value of UTF-16 has.
const HELD: [u32; 10] = [
    0x41, 0x10_FFFF, 0x9F, 0xA9, 0x400, 0x2260, 0x1_0000, 0x4000, 0xFFFD, 0x0,
];

fn good<F: Form>(values: &[u32]) -> Vec<F::Unit> {
    let legal = values.iter().map(|&value| F::encode(value));
    legal
        .flat_map(|legal| legal.expect("every form holds it").to_vec())
        .collect()
}

/// A faulty item behind each number of characters, and before others or the
/// end.
fn each_place<F: Marked + LinkedTo<G> + Drawn, G: LinkedTo<F>>(group: &mut Group) {
    for item in faulty_items::<F, G>() {
        for count in 0..=HELD.len() {
            let before = good::<F>(&HELD[..count]);
            let expected = Err(Refusal {
                fault: item.fault,
                offset: before.len(),
            });
            for after in [&HELD[..0], &HELD[..1], &HELD[1..]] {
                let text = [&before[..], &item.units, &good::<F>(after)].concat();
                three_ways::<F, G>(group, "a faulty item", &text, &expected);
            }
        }
    }
}

/// Of two faulty items the first gives the fault, whatever the numbers.
fn two_faults<F: Marked + LinkedTo<G> + Drawn, G: LinkedTo<F>>(group: &mut Group) {
    let items = faulty_items::<F, G>();
    let before = good::<F>(&HELD[..3]);
    let single = good::<F>(&HELD[..1]);
    for first in &items {
        for second in &items {
            let expected = Err(Refusal {
                fault: first.fault,
                offset: before.len(),
            });
            let text = [&before[..], &first.units, &single, &second.units].concat();
            three_ways::<F, G>(group, "two faulty items", &text, &expected);
            // Directly behind a short sequence, a trailing unit would go on
            // with it.
            if first.fault != 2 || second.fault != 3 {
                let text = [&before[..], &first.units, &second.units, &single].concat();
                three_ways::<F, G>(group, "two faulty items", &text, &expected);
            }
        }
    }
}

/// At one place 5 is tried before 10, 12 and 6: a sequence longer than its value
/// needs, of a surrogate, of a character that is turned away, or of one that
/// UTF-16 cannot hold.
fn too_long_first<F, G>(group: &mut Group, layout: &Layout, to_form: fn(&[u8]) -> Vec<u8>)
where
    F: LinkedTo<G> + Drawn<Unit = u8>,
    G: LinkedTo<F>,
{
    let before = good::<F>(&HELD[..3]);
    let values = SURROGATES.into_iter().chain(TURNED_AWAY);
    for value in values.chain(NOT_IN_UTF_16) {
        let shortest = F::shortest(value).expect("a sequence of it").len();
        for row in layout.rows.iter().filter(|row| row.length > shortest) {
            let spelled = layout.spell(row, value).expect("a value below the row's");
            let text = [&before[..], &to_form(&spelled)].concat();
            let expected = Err(Refusal {
                fault: 5,
                offset: before.len(),
            });
            three_ways::<F, G>(group, "too long comes first", &text, &expected);
        }
    }
}

/// One item of each fault behind every number of units up to seventy, and at
/// the end of the longest text.
fn far_places<F: Marked + LinkedTo<G> + Drawn, G: LinkedTo<F>>(group: &mut Group) {
    let single = good::<F>(&HELD[..1])[0];
    let items = one_of_each_fault::<F, G>();
    for Faulty { units, fault } in &items {
        let last = LONGEST_TEXT - units.len();
        for offset in (0..=70).chain([255, 256, 257, last - 1, last]) {
            let mut text = vec![single; offset];
            text.extend_from_slice(units);
            text.resize(text.len().max(80), single);
            let expected = Err(Refusal {
                fault: *fault,
                offset,
            });
            three_ways::<F, G>(group, "a faulty item", &text, &expected);
        }
    }

    let tried: Vec<u32> = items.iter().map(|item| item.fault).collect();
    let can_be: &[u32] = match (F::NAME, G::NAME) {
        (FssUtf::NAME, Utf16::NAME) => &[2, 3, 4, 5, 6, 10, 12],
        (FssUtf::NAME, _) => &[2, 3, 4, 5, 10, 12],
        (UtfEbcdic::NAME, Utf16::NAME) => &[2, 3, 5, 6, 10, 12],
        (UtfEbcdic::NAME, _) => &[2, 3, 5, 10, 12],
        (Utf16::NAME, _) => &[2, 3, 12],
        (_, Utf16::NAME) => &[4, 6, 10, 12],
        _ => &[4, 10, 12],
    };
    group.check(tried == can_be, || {
        format!("{} to {}: faults {tried:?} were tried", F::NAME, G::NAME)
    });
}
