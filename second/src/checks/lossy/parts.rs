//! Demand 3 in its own words: good characters, then any units at all, then good
//! characters.
//!
//! Nothing here asks the reference for the items of a text. The good characters
//! are known by their drawing, the middle alone is asked of the library, and
//! where a legal encoding stands is found by encoding.

use super::{named, told_items};
use crate::checks::boundaries::boundary_values;
use crate::checks::each_form;
use crate::library::{JkDecoding, Linked};
use crate::random::{draw, Drawn, Random};
use crate::reference::{
    Form, FssUtf, Layout, Role, Ucs4, Utf16, UtfEbcdic, FSS_UTF, I8, LONGEST_TEXT, MARK_VALUE,
    UTF_EBCDIC_TO_I8,
};
use crate::report::{hex, told_decoding, Group};

const TEXTS_OF_EACH_FORM: usize = 260_000;

pub fn check(group: &mut Group) {
    each_form!(joins(group));
    let mut tried = Tried::default();
    each_form!(drawn(group, &mut tried));
    each_form!(longest(group, &mut tried));
    every_byte_or_two::<FssUtf>(group, &mut tried);
    every_byte_or_two::<UtfEbcdic>(group, &mut tried);
    every_unit(group, &mut tried);
    group.note(format!(
        "{} texts of three parts with {} units, {} of them under {} marks",
        tried.texts, tried.units, tried.units_under_marks, tried.marks,
    ));
    group.note(format!(
        "the first part is empty in {}, the middle in {}, the last in {}",
        tried.empty[0], tried.empty[1], tried.empty[2],
    ));
    group.note(format!(
        "the middle begins with a trailing unit in {}, ends with a lead in {}, \
         and has no mark in {}",
        tried.trailing_first, tried.lead_last, tried.unmarked,
    ));
    let counts = [
        tried.marks,
        tried.empty[0],
        tried.empty[1],
        tried.empty[2],
        tried.trailing_first,
        tried.lead_last,
        tried.unmarked,
    ];
    group.check(
        tried.texts >= 1_000_000 && counts.iter().all(|&count| count >= 10_000),
        || "too few texts of one kind were tried".to_string(),
    );
}

/// What was tried, for the notes.
#[derive(Default)]
struct Tried {
    texts: usize,
    units: usize,
    units_under_marks: usize,
    marks: usize,
    empty: [usize; 3],
    trailing_first: usize,
    lead_last: usize,
    unmarked: usize,
}

/// Good characters: the units of a part, and each value with its start.
struct Good<F: Form> {
    units: Vec<F::Unit>,
    characters: Vec<(u32, usize)>,
}

impl<F: Drawn> Good<F> {
    fn of(values: impl IntoIterator<Item = u32>) -> Self {
        let mut good = Good {
            units: Vec::new(),
            characters: Vec::new(),
        };
        for value in values {
            let legal = F::encode(value).expect("the form holds it");
            good.characters.push((value, good.units.len()));
            good.units.extend_from_slice(&legal);
        }
        good
    }

    /// Up to so many characters.
    fn draw(most: usize, random: &mut Random) -> Self {
        let count = random.below(most + 1);
        Good::of((0..count).map(|_| F::value(random)))
    }

    /// Characters of exactly so many units.
    fn fill(length: usize, random: &mut Random) -> Self {
        let mut values = Vec::new();
        let mut left = length;
        while left > 0 {
            let drawn = F::value(random);
            let fits = F::encode(drawn).is_some_and(|legal| legal.len() <= left);
            let value = if fits { drawn } else { 0x41 };
            left -= F::encode(value).map_or(0, |legal| legal.len());
            values.push(value);
        }
        Good::of(values)
    }
}

/// Any units at all. Half of the middles begin with what a lost lead leaves or
/// end with what a lost trailing unit leaves.
fn draw_middle<F: Drawn>(middle: &mut Vec<F::Unit>, longest: usize, random: &mut Random) {
    let character =
        |random: &mut Random| F::encode(F::value(random)).expect("a drawn value has an encoding");
    match random.below(16) {
        0 => middle.clear(),
        1..=7 => draw::<F>(middle, longest, random),
        way => {
            draw::<F>(middle, longest, random);
            if way >= 11 {
                // All but the first few units of a character.
                let legal = character(random);
                let lost = 1 + random.below(legal.len());
                middle.splice(..0, legal[lost..].iter().copied());
            }
            if way <= 13 {
                // The first units of a character.
                let legal = character(random);
                let kept = random.below(legal.len());
                middle.extend_from_slice(&legal[..kept]);
            }
        }
    }
}

fn drawn<F: Linked + Joined>(group: &mut Group, tried: &mut Tried) {
    let mut random = Random::new(0xD00 + F::LONGEST_ITEM as u64);
    let mut middle = Vec::new();
    for number in 0..TEXTS_OF_EACH_FORM {
        let (characters, longest) = match number % 4096 {
            0 => (400, 1_000),
            rest if rest % 16 == 0 => (12, 40),
            _ => (3, 9),
        };
        let first = Good::<F>::draw(characters, &mut random);
        draw_middle::<F>(&mut middle, longest, &mut random);
        let last = Good::<F>::draw(characters, &mut random);
        three_parts::<F>(group, tried, &first, &middle, &last);
    }
}

/// "The whole has at most 65,536 units": those, in parts of all sizes.
fn longest<F: Linked + Joined>(group: &mut Group, tried: &mut Tried) {
    let mut random = Random::new(0xD10 + F::LONGEST_ITEM as u64);
    for (first, middle) in [
        (0, 0),
        (0, LONGEST_TEXT),
        (LONGEST_TEXT, 0),
        (LONGEST_TEXT - 1, 1),
        (LONGEST_TEXT - 2, 1),
        (1, LONGEST_TEXT - 2),
        (30_000, 3),
        (20_000, 20_000),
    ] {
        let units: Vec<F::Unit> = (0..middle).map(|_| F::telling_unit(&mut random)).collect();
        let last = LONGEST_TEXT - first - middle;
        let first = Good::<F>::fill(first, &mut random);
        let last = Good::<F>::fill(last, &mut random);
        three_parts::<F>(group, tried, &first, &units, &last);
    }
}

/// Every byte and every pair of bytes as the middle.
fn every_byte_or_two<F: Linked + Joined<Unit = u8>>(group: &mut Group, tried: &mut Tried) {
    let mut random = Random::new(0xD20 + F::LONGEST_ITEM as u64);
    for one in 0..=0xFF {
        for other in 0..=0xFF {
            let first = Good::<F>::draw(2, &mut random);
            let last = Good::<F>::draw(2, &mut random);
            three_parts::<F>(group, tried, &first, &[one, other], &last);
        }
        let first = Good::<F>::of([F::value(&mut random)]);
        let last = Good::<F>::of([F::value(&mut random)]);
        three_parts::<F>(group, tried, &first, &[one], &last);
    }
}

/// Every 16-bit unit as the middle, between characters of one unit and of two.
fn every_unit(group: &mut Group, tried: &mut Tried) {
    let single = Good::<Utf16>::of([0x41]);
    let pair = Good::<Utf16>::of([0x1_0000]);
    for unit in 0..=0xFFFF {
        three_parts::<Utf16>(group, tried, &single, &[unit], &pair);
        three_parts::<Utf16>(group, tried, &pair, &[unit], &single);
    }
}

/// What the library gave of a text: value and start of each item.
struct Given {
    answer: JkDecoding,
    items: Vec<(u32, usize)>,
}

/// The library's mended reading of a text, with room for as many items as it
/// has units: no item is empty.
fn read<F: Linked>(group: &mut Group, text: &[F::Unit]) -> Given {
    const BEFORE: u32 = 0x5A5A_5A5A;
    let mut values = vec![BEFORE; text.len()];
    let mut starts = vec![BEFORE; text.len()];
    let answer = F::decode_lossy(text, &mut values, &mut starts);
    let count = (answer.items as usize).min(text.len());
    let kept = |cells: &[u32]| cells[count..].iter().all(|&cell| cell == BEFORE);
    let counted = answer == JkDecoding::of(Ok((count, answer.marks as usize)));
    let kept = kept(&values) && kept(&starts);
    let items: Vec<(u32, usize)> = values
        .into_iter()
        .zip(starts)
        .take(count)
        .map(|(value, start)| (value, start as usize))
        .collect();
    group.check(counted && kept, || {
        format!(
            "mended reading of {}: came {} with {}; the other cells are {}",
            named::<F>(text),
            told_decoding(answer),
            told_items(&items),
            if kept { "untouched" } else { "changed" },
        )
    });
    Given { answer, items }
}

/// Demand 3 of one text.
fn three_parts<F: Linked + Joined>(
    group: &mut Group,
    tried: &mut Tried,
    first: &Good<F>,
    middle: &[F::Unit],
    last: &Good<F>,
) {
    let whole = [&first.units[..], middle, &last.units].concat();
    let alone = read::<F>(group, middle);
    let given = read::<F>(group, &whole);
    let parts = || {
        format!(
            "{}: {} units, then [{}], then {} units",
            named::<F>(&whole),
            first.units.len(),
            hex::<F>(middle),
            last.units.len(),
        )
    };

    // "The characters of the first part, then the same values and marks as for
    // the middle alone, then the characters of the last part, with every start
    // counted in the whole text."
    let parted = [
        (&first.characters, 0),
        (&alone.items, first.units.len()),
        (&last.characters, first.units.len() + middle.len()),
    ];
    let expected = parted
        .iter()
        .flat_map(|&(items, before)| items.iter().map(move |&(value, at)| (value, at + before)));
    group.check(given.items.iter().copied().eq(expected), || {
        format!(
            "{}: came {}, and of the middle alone {}",
            parts(),
            told_items(&given.items),
            told_items(&alone.items),
        )
    });

    // "Items returned = characters of the first part + items of the middle
    // alone + characters of the last part. Marks returned = marks of the middle
    // alone."
    let items = first.characters.len() + alone.items.len() + last.characters.len();
    let is_mark = |item: &&(u32, usize)| item.0 == MARK_VALUE;
    let marks = given.items.iter().filter(is_mark).count();
    let counts = given.answer.items == items as u64
        && given.answer.marks == alone.answer.marks
        && given.answer.marks == marks as u64;
    group.check(counts, || {
        format!(
            "{}: {}, but of the middle alone {}",
            parts(),
            told_decoding(given.answer),
            told_decoding(alone.answer),
        )
    });

    let wrong = misplaced::<F>(&whole, &given.items);
    group.check(wrong.is_none(), || {
        format!("{}: {}", parts(), wrong.unwrap_or_default())
    });
    let under_marks = under_marks::<F>(&whole, &given.items);
    group.check(under_marks.is_ok(), || {
        format!("{}: {under_marks:?}", parts())
    });

    tried.texts += 1;
    tried.units += whole.len();
    tried.units_under_marks += under_marks.unwrap_or(0);
    tried.marks += marks;
    tried.unmarked += usize::from(marks == 0);
    let lengths = [first.units.len(), middle.len(), last.units.len()];
    for (empty, length) in tried.empty.iter_mut().zip(lengths) {
        *empty += usize::from(length == 0);
    }
    if let (Some(&begin), Some(&end)) = (middle.first(), middle.last()) {
        tried.trailing_first += usize::from(F::role(begin) == Role::Trailing);
        tried.lead_last += usize::from(matches!(F::role(end), Role::Lead(_)));
    }
}

/// A form whose units' free bits can be joined whatever the units are.
trait Joined: Drawn {
    /// The value that these units encode, if they are a legal encoding at all:
    /// the low bits of each that a sequence of so many leaves free.
    fn joined(units: &[Self::Unit]) -> u32;
}

fn joined_bytes(layout: &Layout, bytes: impl ExactSizeIterator<Item = u8>) -> u32 {
    let row = &layout.rows[bytes.len() - 1];
    let mut value = 0;
    for (index, byte) in bytes.enumerate() {
        let free = match index {
            0 if row.length == 1 => 0xFF,
            0 => u32::from(row.last_lead - row.first_lead),
            _ => (1 << layout.free_bits) - 1,
        };
        value = (value << layout.free_bits) | (u32::from(byte) & free);
    }
    value
}

impl Joined for FssUtf {
    fn joined(units: &[u8]) -> u32 {
        joined_bytes(&FSS_UTF, units.iter().copied())
    }
}

impl Joined for UtfEbcdic {
    fn joined(units: &[u8]) -> u32 {
        let exchanged = units
            .iter()
            .map(|&unit| UTF_EBCDIC_TO_I8[usize::from(unit)]);
        joined_bytes(&I8, exchanged)
    }
}

impl Joined for Utf16 {
    fn joined(units: &[u16]) -> u32 {
        match *units {
            [high, low] => 0x1_0000 + ((u32::from(high) & 0x3FF) << 10) + (u32::from(low) & 0x3FF),
            _ => units[0].into(),
        }
    }
}

impl Joined for Ucs4 {
    fn joined(units: &[u32]) -> u32 {
        units[0]
    }
}

/// The legal encoding of a value joins to it.
fn joins<F: Joined>(group: &mut Group) {
    let mut random = Random::new(0xD30 + F::LONGEST_ITEM as u64);
    let drawn = (0..20_000).map(|_| F::value(&mut random));
    for value in boundary_values().into_iter().chain(drawn) {
        if let Some(legal) = F::encode(value) {
            let joined = F::joined(&legal);
            group.check(joined == value, || {
                format!("{}: {value:X} joins to {joined:X}", named::<F>(&legal))
            });
        }
    }
}

/// "A character is given at a place exactly when its legal encoding stands
/// there." Tells of a place where it is not so.
///
/// The legal encoding of a value joins to it; so the joined value of each number
/// of units at each place is the only one to try.
fn misplaced<F: Joined>(text: &[F::Unit], items: &[(u32, usize)]) -> Option<String> {
    let mut given_at = vec![MARK_VALUE; text.len()];
    for &(value, start) in items.iter().filter(|(value, _)| *value != MARK_VALUE) {
        let stands = F::encode(value).is_some_and(|legal| {
            text.get(start..)
                .is_some_and(|rest| rest.starts_with(&legal))
        });
        if !stands {
            return Some(format!(
                "{value:X} is given at {start}, but does not stand there"
            ));
        }
        given_at[start] = value;
    }
    for (place, &given) in given_at.iter().enumerate() {
        let rest = &text[place..];
        for length in 1..=F::LONGEST_ITEM.min(rest.len()) {
            let value = F::joined(&rest[..length]);
            let stands = F::encode(value).is_some_and(|legal| *legal == rest[..length]);
            if stands && value != given {
                return Some(format!(
                    "{value:X} stands at {place}, but is not given there"
                ));
            }
        }
    }
    None
}

/// "Every unit outside the encodings of the characters so given lies under
/// exactly one fault mark", and no unit within them does. Counts the units
/// under marks, or tells of one where it is not so.
fn under_marks<F: Form>(text: &[F::Unit], items: &[(u32, usize)]) -> Result<usize, String> {
    if let Some(pair) = items.windows(2).find(|pair| pair[0].1 >= pair[1].1) {
        return Err(format!("the starts do not increase: {pair:X?}"));
    }
    let mut under_marks = 0;
    let mut following = items.iter().peekable();
    let mut nearest = None;
    for unit in 0..text.len() {
        // "A unit lies under the item that starts at it or, failing that,
        // nearest before it."
        while let Some(item) = following.next_if(|(_, start)| *start <= unit) {
            nearest = Some(*item);
        }
        let Some((value, start)) = nearest else {
            return Err(format!("unit {unit} lies under no item"));
        };
        if value == MARK_VALUE {
            under_marks += 1;
        } else if unit >= start + F::encode(value).map_or(0, |legal| legal.len()) {
            return Err(format!(
                "unit {unit} lies under {value:X}, not under a mark"
            ));
        }
    }
    // A mark that starts within an encoding would take units from it.
    for pair in items.windows(2) {
        let (value, start) = pair[0];
        let length = match value {
            MARK_VALUE => 1,
            _ => F::encode(value).map_or(0, |legal| legal.len()),
        };
        if start + length > pair[1].1 {
            return Err(format!("an item starts within another: {pair:X?}"));
        }
    }
    if let Some(item) = following.next() {
        return Err(format!("an item starts beyond the text: {item:X?}"));
    }
    Ok(under_marks)
}

#[cfg(test)]
mod tests {
    use super::*;

    /// A short sequence, 41, A9 and a trailing byte.
    const TEXT: [u8; 6] = [0xE2, 0x89, 0x41, 0xC2, 0xA9, 0x80];
    const RIGHT: [(u32, usize); 4] = [(MARK_VALUE, 0), (0x41, 2), (0xA9, 3), (MARK_VALUE, 5)];

    #[test]
    fn right_items_pass() {
        assert_eq!(misplaced::<FssUtf>(&TEXT, &RIGHT), None);
        assert_eq!(under_marks::<FssUtf>(&TEXT, &RIGHT), Ok(3));
    }

    #[test]
    fn a_character_misplaced_is_seen() {
        let change = |item: usize, changed: (u32, usize)| {
            let mut items = RIGHT;
            items[item] = changed;
            misplaced::<FssUtf>(&TEXT, &items)
        };
        assert!(change(1, (MARK_VALUE, 2)).is_some());
        assert!(change(1, (0x42, 2)).is_some());
        assert!(change(1, (0x41, 1)).is_some());
        assert!(change(2, (0xA9, 4)).is_some());
        assert!(change(0, (0x241, 0)).is_some());
        assert!(change(3, (0x0, 6)).is_some());
        assert!(change(3, (0x0, 7)).is_some());
        assert!(change(3, (0x8000_0000, 5)).is_some());
        assert!(misplaced::<FssUtf>(&TEXT, &RIGHT[..2]).is_some());
    }

    #[test]
    fn a_unit_under_no_mark_is_seen() {
        let marks = |items: &[(u32, usize)]| under_marks::<FssUtf>(&TEXT, items);
        assert!(marks(&[]).is_err());
        assert!(marks(&RIGHT[1..]).is_err());
        assert!(marks(&RIGHT[..3]).is_err());
        assert!(marks(&[RIGHT[0], RIGHT[1], RIGHT[3]]).is_err());
        assert!(marks(&[RIGHT[0], RIGHT[0], RIGHT[1], RIGHT[2], RIGHT[3]]).is_err());
        assert!(marks(&[RIGHT[0], RIGHT[2], RIGHT[1], RIGHT[3]]).is_err());
        let within = (MARK_VALUE, 4);
        assert!(marks(&[RIGHT[0], RIGHT[1], RIGHT[2], within, RIGHT[3]]).is_err());
        let beyond = (MARK_VALUE, 6);
        assert!(marks(&[RIGHT[0], RIGHT[1], RIGHT[2], RIGHT[3], beyond]).is_err());
        // A mark that takes the place of a character covers its units, but then
        // the character is not given.
        let all = [(MARK_VALUE, 0)];
        assert_eq!(marks(&all), Ok(6));
        assert!(misplaced::<FssUtf>(&TEXT, &all).is_some());
    }
}
