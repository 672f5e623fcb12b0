//! Random texts, good and damaged, from a fixed seed.

use crate::reference::{
    is_surrogate, is_turned_away, Form, FssUtf, Layout, Ucs4, Utf16, UtfEbcdic, FSS_UTF,
    HIGHEST_VALUE, I8, I8_TO_UTF_EBCDIC,
};

/// Every run draws the same texts.
pub const SEED: u64 = 0x4A49_534B_524F_4D45;

/// The splitmix64 generator.
pub struct Random {
    state: u64,
}

impl Random {
    /// `stream` keeps groups apart, so that one group's draws do not move
    /// another's.
    pub fn new(stream: u64) -> Self {
        Random {
            state: SEED ^ stream.wrapping_mul(0x9E37_79B9_7F4A_7C15).rotate_left(17),
        }
    }

    pub fn next(&mut self) -> u64 {
        self.state = self.state.wrapping_add(0x9E37_79B9_7F4A_7C15);
        let mut mixed = self.state;
        mixed = (mixed ^ (mixed >> 30)).wrapping_mul(0xBF58_476D_1CE4_E5B9);
        mixed = (mixed ^ (mixed >> 27)).wrapping_mul(0x94D0_49BB_1331_11EB);
        mixed ^ (mixed >> 31)
    }

    /// A number below `bound`, which is not 0.
    pub fn below(&mut self, bound: usize) -> usize {
        (self.next() % bound as u64) as usize
    }

    /// A number from `low` to `high`, both included.
    pub fn between(&mut self, low: u32, high: u32) -> u32 {
        low + (self.next() % (u64::from(high - low) + 1)) as u32
    }

    pub fn pick<T: Copy>(&mut self, from: &[T]) -> T {
        from[self.below(from.len())]
    }
}

/// A form of which units and values can be drawn.
pub trait Drawn: Form {
    /// Any unit at all.
    fn any_unit(random: &mut Random) -> Self::Unit;

    /// A unit with leads, trailing and unused units as likely as singles.
    fn telling_unit(random: &mut Random) -> Self::Unit;

    /// A value with a legal encoding, each length as likely as another, and
    /// the ends of each length's range more likely than its middle.
    fn value(random: &mut Random) -> u32;
}

fn near_ends(random: &mut Random, low: u32, high: u32) -> u32 {
    match random.below(4) {
        0 => low + random.between(0, 2.min(high - low)),
        1 => high - random.between(0, 2.min(high - low)),
        _ => random.between(low, high),
    }
}

fn telling_byte(layout: &Layout, random: &mut Random) -> u8 {
    match random.below(8) {
        0 => random.next() as u8,
        1..=3 => random.between(layout.first_trailing.into(), layout.last_trailing.into()) as u8,
        4 => random.pick(&[0xC0, 0xE0, 0xF0, 0xF8, 0xFC, 0xFD, 0xFE, 0xFF]),
        _ => {
            let row = &layout.rows[random.below(layout.rows.len())];
            random.between(row.first_lead.into(), row.last_lead.into()) as u8
        }
    }
}

/// A value that is a character: one in eight stands next to the surrogates or
/// is FFFE or FFFF.
fn layout_value(layout: &Layout, random: &mut Random) -> u32 {
    loop {
        let row = &layout.rows[random.below(layout.rows.len())];
        let value = match random.below(8) {
            0 => random.pick(&[0xD7FE, 0xD7FF, 0xE000, 0xE001, 0xFFFE, 0xFFFF]),
            _ => near_ends(random, row.lowest, row.highest),
        };
        if !is_surrogate(value) {
            return value;
        }
    }
}

impl Drawn for FssUtf {
    fn any_unit(random: &mut Random) -> u8 {
        random.next() as u8
    }

    fn telling_unit(random: &mut Random) -> u8 {
        telling_byte(&FSS_UTF, random)
    }

    fn value(random: &mut Random) -> u32 {
        layout_value(&FSS_UTF, random)
    }
}

impl Drawn for UtfEbcdic {
    fn any_unit(random: &mut Random) -> u8 {
        random.next() as u8
    }

    fn telling_unit(random: &mut Random) -> u8 {
        I8_TO_UTF_EBCDIC[usize::from(telling_byte(&I8, random))]
    }

    fn value(random: &mut Random) -> u32 {
        layout_value(&I8, random)
    }
}

impl Drawn for Utf16 {
    fn any_unit(random: &mut Random) -> u16 {
        random.next() as u16
    }

    fn telling_unit(random: &mut Random) -> u16 {
        let unit = match random.below(8) {
            0..=2 => near_ends(random, 0xD800, 0xDBFF),
            3..=5 => near_ends(random, 0xDC00, 0xDFFF),
            6 => random.pick(&[0, 0x41, 0xD7FF, 0xE000, 0xFEFF, 0xFFFE, 0xFFFF]),
            _ => random.between(0, 0xFFFF),
        };
        unit as u16
    }

    fn value(random: &mut Random) -> u32 {
        let (low, high) = random.pick(&[(0, 0xD7FF), (0xE000, 0xFFFF), (0x1_0000, 0x10_FFFF)]);
        near_ends(random, low, high)
    }
}

impl Drawn for Ucs4 {
    fn any_unit(random: &mut Random) -> u32 {
        random.next() as u32
    }

    fn telling_unit(random: &mut Random) -> u32 {
        match random.below(4) {
            0 => near_ends(random, HIGHEST_VALUE + 1, u32::MAX),
            1 => near_ends(random, 0xD800, 0xDFFF),
            _ => near_ends(random, 0, HIGHEST_VALUE),
        }
    }

    fn value(random: &mut Random) -> u32 {
        match random.below(3) {
            0 => layout_value(&FSS_UTF, random),
            1 => layout_value(&I8, random),
            _ => random.between(0x1_0000, HIGHEST_VALUE),
        }
    }
}

/// Adds whole characters to a text until it would outgrow `longest` units.
pub fn add_good<F: Drawn>(text: &mut Vec<F::Unit>, longest: usize, random: &mut Random) {
    loop {
        let value = F::value(random);
        let legal = F::encode(value).expect("a drawn value has an encoding");
        if text.len() + legal.len() > longest {
            return;
        }
        text.extend_from_slice(&legal);
    }
}

/// Loses, replaces or puts in a few units, up to three times. What is put in
/// is a surrogate's sequence once in four times, where the form has one.
pub fn damage<F: Drawn>(text: &mut Vec<F::Unit>, random: &mut Random) {
    for _ in 0..=random.below(3) {
        let few = 1 + random.below(3);
        let (lost, put_in) = random.pick(&[(few, 0), (few, few), (0, few)]);
        let start = random.below(text.len() + 1);
        let end = (start + lost).min(text.len());
        let surrogate = F::shortest(near_ends(random, 0xD800, 0xDFFF));
        let units: Vec<F::Unit> = match surrogate {
            Some(sequence) if put_in > 0 && random.below(4) == 0 => sequence.to_vec(),
            _ => (0..put_in).map(|_| F::telling_unit(random)).collect(),
        };
        text.splice(start..end, units);
    }
}

/// Refills `text` with a random text of at most `longest` units.
pub fn draw<F: Drawn>(text: &mut Vec<F::Unit>, longest: usize, random: &mut Random) {
    text.clear();
    let longest = random.below(longest + 1);
    match random.below(8) {
        0 => text.extend((0..longest).map(|_| F::any_unit(random))),
        1 | 2 => text.extend((0..longest).map(|_| F::telling_unit(random))),
        3 => add_good::<F>(text, longest, random),
        4 => {
            // A good text cut short at either end, seldom between characters.
            add_good::<F>(text, longest, random);
            let from = random.below(text.len() + 1);
            let to = from + random.below(text.len() - from + 1);
            text.truncate(to);
            text.drain(..from);
        }
        _ => {
            add_good::<F>(text, longest, random);
            damage::<F>(text, random);
        }
    }
    text.truncate(longest);
}

/// Adds characters that a conversion accepts, which both forms hold, until the
/// text would outgrow `longest` units.
pub fn add_common<F: Drawn, G: Drawn>(
    text: &mut Vec<F::Unit>,
    longest: usize,
    random: &mut Random,
) {
    loop {
        let value = match random.below(2) {
            0 => F::value(random),
            _ => G::value(random),
        };
        let (Some(legal), Some(_)) = (F::encode(value), G::encode(value)) else {
            continue;
        };
        if is_turned_away(value) {
            continue;
        }
        if text.len() + legal.len() > longest {
            return;
        }
        text.extend_from_slice(&legal);
    }
}

/// `draw` for a conversion: more than half of the texts have characters that it
/// accepts, with or without a fault among them.
pub fn draw_for<F: Drawn, G: Drawn>(text: &mut Vec<F::Unit>, longest: usize, random: &mut Random) {
    let way = random.below(9);
    if way < 4 {
        return draw::<F>(text, longest, random);
    }
    text.clear();
    let longest = random.below(longest + 1);
    add_common::<F, G>(text, longest, random);
    match way {
        4 => damage::<F>(text, random),
        5 | 6 => {
            // A value that the target may not hold, or one that is turned away,
            // between two texts.
            let value = match way {
                5 => F::value(random),
                _ => random.pick(&[0xFFFE, 0xFFFF]),
            };
            let legal = F::encode(value).expect("the form holds it");
            text.extend_from_slice(&legal);
            let longest = text.len() + random.below(8);
            add_common::<F, G>(text, longest, random);
            if way == 6 && random.below(2) == 0 {
                // Another fault before it or behind it.
                damage::<F>(text, random);
            }
        }
        _ => {}
    }
}
