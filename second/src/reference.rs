//! The rules of document 01, written a second time from the papers.
//!
//! Plainness comes before speed here: every function follows the words of a
//! rule, so that it can be held against the paper line by line.

mod conversion;
mod covering;
mod exchange;
mod lossy;

pub use conversion::{convert, is_turned_away, most_units, written, Converted, Refusal};
pub use covering::{item_covering, items_of_units};
pub use exchange::{I8_TO_UTF_EBCDIC, UTF_EBCDIC_TO_I8};
pub use lossy::{decode_lossy, given, Decoded, Mended, MARK_VALUE};

use std::fmt::Debug;
use std::ops::Deref;

/// A text of more units than this is refused.
pub const LONGEST_TEXT: usize = 65_536;

/// The highest value of UCS-4 and of both byte forms.
pub const HIGHEST_VALUE: u32 = 0x7FFF_FFFF;

/// What a code unit does in its form.
#[derive(Clone, Copy, Debug, PartialEq, Eq)]
pub enum Role {
    /// A character by itself.
    Single,
    /// Starts a sequence of this many units, itself counted.
    Lead(usize),
    Trailing,
    /// Starts nothing: FE and FF in FSS-UTF, 80000000 and above in UCS-4.
    Unused,
}

/// What an item reads as. A mark carries its fault number.
#[derive(Clone, Copy, Debug, PartialEq, Eq)]
pub enum Content {
    Character(u32),
    Mark(u32),
}

/// An item of a text.
#[derive(Clone, Copy, Debug, PartialEq, Eq)]
pub struct Item {
    pub start: usize,
    pub length: usize,
    pub content: Content,
}

/// What reading at an offset answers.
#[derive(Clone, Copy, Debug, PartialEq, Eq)]
pub enum Reading {
    End,
    Item(Item),
    Refusal { fault: u32, offset: usize },
}

/// The units of one character, at most seven.
#[derive(Clone, Copy, Debug)]
pub struct Encoding<U> {
    units: [U; 7],
    length: usize,
}

impl<U: Copy + Default> Encoding<U> {
    fn of(units: &[U]) -> Self {
        let mut array = [U::default(); 7];
        array[..units.len()].copy_from_slice(units);
        Encoding {
            units: array,
            length: units.len(),
        }
    }
}

impl<U> Deref for Encoding<U> {
    type Target = [U];

    fn deref(&self) -> &[U] {
        &self.units[..self.length]
    }
}

/// One of the four forms.
pub trait Form {
    type Unit: Copy + Default + Eq + Debug + Into<u32> + TryFrom<u32, Error: Debug>;

    /// The form's name in document 01.
    const NAME: &'static str;

    /// The most units that one item has.
    const LONGEST_ITEM: usize;

    fn role(unit: Self::Unit) -> Role;

    /// The free bits of a full sequence joined, first unit highest.
    fn join(sequence: &[Self::Unit]) -> u32;

    /// The shortest sequence of a value, where the form has one.
    fn shortest(value: u32) -> Option<Encoding<Self::Unit>>;

    /// The legal encoding of a value, where the form has one: the shortest
    /// sequence of a value that is a character.
    fn encode(value: u32) -> Option<Encoding<Self::Unit>> {
        if is_surrogate(value) {
            return None;
        }
        Self::shortest(value)
    }

    /// The unit with this number. The caller knows that it fits.
    fn unit(number: u32) -> Self::Unit {
        Self::Unit::try_from(number).expect("a number of the form's width")
    }
}

/// Request 104: "Surrogate values are not characters."
pub fn is_surrogate(value: u32) -> bool {
    (0xD800..=0xDFFF).contains(&value)
}

/// A full sequence, no longer than its value needs.
fn shortest_content(value: u32) -> Content {
    if is_surrogate(value) {
        Content::Mark(10)
    } else {
        Content::Character(value)
    }
}

/// What the units of one item read as.
pub fn content<F: Form>(item: &[F::Unit]) -> Content {
    match F::role(item[0]) {
        Role::Single => shortest_content(F::join(item)),
        Role::Trailing => Content::Mark(3),
        Role::Unused => Content::Mark(4),
        Role::Lead(length) if item.len() < length => Content::Mark(2),
        Role::Lead(_) => {
            let value = F::join(item);
            let shortest = F::shortest(value).is_some_and(|shortest| *shortest == *item);
            if shortest {
                shortest_content(value)
            } else {
                Content::Mark(5)
            }
        }
    }
}

/// The one-item reader.
pub fn item_at<F: Form>(text: &[F::Unit], offset: usize) -> Reading {
    if text.len() > LONGEST_TEXT {
        return Reading::Refusal {
            fault: 1,
            offset: 0,
        };
    }
    if offset > text.len() {
        return Reading::Refusal { fault: 9, offset };
    }
    let rest = &text[offset..];
    let Some(&first) = rest.first() else {
        return Reading::End;
    };
    let length = match F::role(first) {
        Role::Lead(asked) => {
            let followers = rest[1..].iter().take(asked - 1);
            1 + followers
                .take_while(|unit| F::role(**unit) == Role::Trailing)
                .count()
        }
        Role::Single | Role::Trailing | Role::Unused => 1,
    };
    Reading::Item(Item {
        start: offset,
        length,
        content: content::<F>(&rest[..length]),
    })
}

/// The items of a whole text, parted in one pass over its units.
///
/// It does not call `item_at`: a unit either joins the item before it or
/// starts one, which is the same rule seen from the other side.
pub fn items<F: Form>(text: &[F::Unit]) -> Vec<Item> {
    let mut starts = Vec::new();
    let mut still_taken = 0;
    for (offset, &unit) in text.iter().enumerate() {
        match F::role(unit) {
            Role::Trailing if still_taken > 0 => still_taken -= 1,
            Role::Lead(length) => {
                starts.push(offset);
                still_taken = length - 1;
            }
            Role::Single | Role::Trailing | Role::Unused => {
                starts.push(offset);
                still_taken = 0;
            }
        }
    }
    let ends = starts.iter().skip(1).copied().chain([text.len()]);
    starts
        .iter()
        .zip(ends)
        .map(|(&start, end)| Item {
            start,
            length: end - start,
            content: content::<F>(&text[start..end]),
        })
        .collect()
}

/// One line of document 01's table of byte layouts.
pub struct Row {
    pub length: usize,
    pub first_lead: u8,
    pub last_lead: u8,
    pub lowest: u32,
    pub highest: u32,
}

/// A byte layout: its rows, and the trailing bytes with their free bits.
pub struct Layout {
    pub rows: &'static [Row],
    pub first_trailing: u8,
    pub last_trailing: u8,
    pub free_bits: u32,
}

const fn row(length: usize, leads: (u8, u8), values: (u32, u32)) -> Row {
    Row {
        length,
        first_lead: leads.0,
        last_lead: leads.1,
        lowest: values.0,
        highest: values.1,
    }
}

pub const FSS_UTF: Layout = Layout {
    rows: &[
        row(1, (0x00, 0x7F), (0x0, 0x7F)),
        row(2, (0xC0, 0xDF), (0x80, 0x7FF)),
        row(3, (0xE0, 0xEF), (0x800, 0xFFFF)),
        row(4, (0xF0, 0xF7), (0x1_0000, 0x1F_FFFF)),
        row(5, (0xF8, 0xFB), (0x20_0000, 0x3FF_FFFF)),
        row(6, (0xFC, 0xFD), (0x400_0000, 0x7FFF_FFFF)),
    ],
    first_trailing: 0x80,
    last_trailing: 0xBF,
    free_bits: 6,
};

pub const I8: Layout = Layout {
    rows: &[
        row(1, (0x00, 0x9F), (0x0, 0x9F)),
        row(2, (0xC0, 0xDF), (0xA0, 0x3FF)),
        row(3, (0xE0, 0xEF), (0x400, 0x3FFF)),
        row(4, (0xF0, 0xF7), (0x4000, 0x3_FFFF)),
        row(5, (0xF8, 0xFB), (0x4_0000, 0x3F_FFFF)),
        row(6, (0xFC, 0xFD), (0x40_0000, 0x3FF_FFFF)),
        row(7, (0xFE, 0xFF), (0x400_0000, 0x7FFF_FFFF)),
    ],
    first_trailing: 0xA0,
    last_trailing: 0xBF,
    free_bits: 5,
};

impl Layout {
    /// The row whose leads include this byte.
    fn row_of(&self, lead: u8) -> Option<&'static Row> {
        self.rows
            .iter()
            .find(|row| (row.first_lead..=row.last_lead).contains(&lead))
    }

    fn role(&self, byte: u8) -> Role {
        if (self.first_trailing..=self.last_trailing).contains(&byte) {
            return Role::Trailing;
        }
        match self.row_of(byte) {
            Some(row) if row.length == 1 => Role::Single,
            Some(row) => Role::Lead(row.length),
            None => Role::Unused,
        }
    }

    fn join(&self, sequence: &[u8]) -> u32 {
        let row = self
            .row_of(sequence[0])
            .expect("a sequence starts with a lead");
        let mut value = u32::from(sequence[0] - row.first_lead);
        for &trailing in &sequence[1..] {
            value = (value << self.free_bits) | u32::from(trailing - self.first_trailing);
        }
        value
    }

    /// The bytes that this row's layout gives a value, the shortest or not;
    /// none where the value has more bits than the row has free ones.
    pub fn spell(&self, row: &Row, value: u32) -> Option<Encoding<u8>> {
        let mut bytes = [0; 7];
        let mut rest = value;
        for byte in bytes[1..row.length].iter_mut().rev() {
            *byte = self.first_trailing + (rest % (1 << self.free_bits)) as u8;
            rest >>= self.free_bits;
        }
        if rest > u32::from(row.last_lead - row.first_lead) {
            return None;
        }
        bytes[0] = row.first_lead + rest as u8;
        Some(Encoding::of(&bytes[..row.length]))
    }

    fn shortest(&self, value: u32) -> Option<Encoding<u8>> {
        let row = self
            .rows
            .iter()
            .find(|row| (row.lowest..=row.highest).contains(&value))?;
        self.spell(row, value)
    }
}

/// FSS-UTF, in bytes.
pub struct FssUtf;

impl Form for FssUtf {
    type Unit = u8;
    const NAME: &'static str = "FSS-UTF";
    const LONGEST_ITEM: usize = 6;

    fn role(unit: u8) -> Role {
        FSS_UTF.role(unit)
    }

    fn join(sequence: &[u8]) -> u32 {
        FSS_UTF.join(sequence)
    }

    fn shortest(value: u32) -> Option<Encoding<u8>> {
        FSS_UTF.shortest(value)
    }
}

/// UTF-EBCDIC: the bytes of I8, each exchanged.
pub struct UtfEbcdic;

/// The UTF-EBCDIC bytes of I8 bytes.
pub fn exchanged(i8_bytes: &[u8]) -> Encoding<u8> {
    let mut exchanged = Encoding::of(i8_bytes);
    for byte in &mut exchanged.units[..i8_bytes.len()] {
        *byte = I8_TO_UTF_EBCDIC[usize::from(*byte)];
    }
    exchanged
}

impl Form for UtfEbcdic {
    type Unit = u8;
    const NAME: &'static str = "UTF-EBCDIC";
    const LONGEST_ITEM: usize = 7;

    fn role(unit: u8) -> Role {
        I8.role(UTF_EBCDIC_TO_I8[usize::from(unit)])
    }

    fn join(sequence: &[u8]) -> u32 {
        let mut i8_bytes = [0; 7];
        for (target, &byte) in i8_bytes.iter_mut().zip(sequence) {
            *target = UTF_EBCDIC_TO_I8[usize::from(byte)];
        }
        I8.join(&i8_bytes[..sequence.len()])
    }

    fn shortest(value: u32) -> Option<Encoding<u8>> {
        I8.shortest(value).map(|i8_bytes| exchanged(&i8_bytes))
    }
}

/// UTF-16, in 16-bit numbers.
pub struct Utf16;

impl Form for Utf16 {
    type Unit = u16;
    const NAME: &'static str = "UTF-16";
    const LONGEST_ITEM: usize = 2;

    fn role(unit: u16) -> Role {
        match unit {
            0xD800..=0xDBFF => Role::Lead(2),
            0xDC00..=0xDFFF => Role::Trailing,
            _ => Role::Single,
        }
    }

    fn join(sequence: &[u16]) -> u32 {
        match *sequence {
            [high, low] => {
                0x1_0000 + (u32::from(high) - 0xD800) * 0x400 + (u32::from(low) - 0xDC00)
            }
            _ => u32::from(sequence[0]),
        }
    }

    fn shortest(value: u32) -> Option<Encoding<u16>> {
        match value {
            0xD800..=0xDFFF => None,
            0..=0xFFFF => Some(Encoding::of(&[value as u16])),
            0x1_0000..=0x10_FFFF => {
                let above = value - 0x1_0000;
                let high = 0xD800 + above / 0x400;
                let low = 0xDC00 + above % 0x400;
                Some(Encoding::of(&[high as u16, low as u16]))
            }
            _ => None,
        }
    }
}

/// UCS-4, in 32-bit numbers.
pub struct Ucs4;

impl Form for Ucs4 {
    type Unit = u32;
    const NAME: &'static str = "UCS-4";
    const LONGEST_ITEM: usize = 1;

    fn role(unit: u32) -> Role {
        if unit <= HIGHEST_VALUE {
            Role::Single
        } else {
            Role::Unused
        }
    }

    fn join(sequence: &[u32]) -> u32 {
        sequence[0]
    }

    fn shortest(value: u32) -> Option<Encoding<u32>> {
        (value <= HIGHEST_VALUE).then(|| Encoding::of(&[value]))
    }
}
