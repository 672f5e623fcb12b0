//! The texts: six classes, each the same in every run.

use std::collections::VecDeque;

use crate::random::Random;
use crate::reference::{self, Form, FssUtf, Ucs4, Utf16, UtfEbcdic, LONGEST_TEXT};

/// The most bytes of FSS-UTF that a short text has.
pub const SHORT_TEXT: usize = 40;

#[derive(Clone, Copy, Debug, PartialEq, Eq)]
pub enum Class {
    Ascii,
    Latin,
    Cyrillic,
    Cjk,
    Emoji,
    Mixed,
}

impl Class {
    pub const ALL: [Class; 6] = [
        Class::Ascii,
        Class::Latin,
        Class::Cyrillic,
        Class::Cjk,
        Class::Emoji,
        Class::Mixed,
    ];

    pub fn name(self) -> &'static str {
        match self {
            Class::Ascii => "ASCII",
            Class::Latin => "Latin",
            Class::Cyrillic => "Cyrillic",
            Class::Cjk => "CJK",
            Class::Emoji => "emoji",
            Class::Mixed => "mixed",
        }
    }
}

#[derive(Clone, Copy, Debug, PartialEq, Eq)]
pub enum Size {
    /// At most 65,536 units in every form.
    Long,
    /// At most 40 bytes of FSS-UTF.
    Short,
}

impl Size {
    pub const ALL: [Size; 2] = [Size::Long, Size::Short];

    pub fn name(self) -> &'static str {
        match self {
            Size::Long => "64 KiB",
            Size::Short => "40 bytes",
        }
    }
}

/// The characters of a text.
pub fn characters(class: Class, size: Size) -> Vec<u32> {
    match size {
        Size::Short => fill(class, 3..=5, |value| [length::<FssUtf>(value)], SHORT_TEXT),
        Size::Long => fill(
            class,
            8..=40,
            |value| {
                [
                    length::<FssUtf>(value),
                    length::<UtfEbcdic>(value),
                    length::<Utf16>(value),
                    length::<Ucs4>(value),
                ]
            },
            LONGEST_TEXT,
        ),
    }
}

/// As many units of one form as a text may have.
pub fn longest_in<F: Form>(class: Class) -> Vec<F::Unit> {
    let characters = fill(class, 8..=40, |value| [length::<F>(value)], LONGEST_TEXT);
    let mut text = encode::<F>(&characters);
    // What is missing after the last whole character.
    text.resize(LONGEST_TEXT, encode::<F>(&[' '.into()])[0]);
    text
}

pub fn encode<F: Form>(characters: &[u32]) -> Vec<F::Unit> {
    characters
        .iter()
        .flat_map(|&value| units::<F>(value))
        .collect()
}

fn units<F: Form>(value: u32) -> Vec<F::Unit> {
    F::encode(value)
        .expect("every form has the character")
        .to_vec()
}

fn length<F: Form>(value: u32) -> usize {
    F::encode(value)
        .expect("every form has the character")
        .len()
}

/// Characters of a class until one of the lengths would outgrow the room.
fn fill<const N: usize>(
    class: Class,
    stretch: std::ops::RangeInclusive<u32>,
    lengths: impl Fn(u32) -> [usize; N],
    room: usize,
) -> Vec<u32> {
    let mut maker = Maker::new(class, stretch);
    let mut characters = Vec::new();
    let mut total = [0; N];
    loop {
        let value = maker.next();
        for (sum, length) in total.iter_mut().zip(lengths(value)) {
            *sum += length;
            if *sum > room {
                return characters;
            }
        }
        characters.push(value);
    }
}

/// Every hundredth byte of a text, at irregular places, becomes another; of a
/// text of less than a hundred bytes, one.
pub fn strike<F: Form>(text: &[F::Unit]) -> Vec<F::Unit> {
    let mut random = Random::new(100);
    let mut struck = text.to_vec();
    let width = size_of::<F::Unit>();
    let bytes = size_of_val(text);
    let stretch = bytes.min(100);
    for number in 0..bytes.checked_div(stretch).unwrap_or(0) {
        let at = number * stretch + random.below(stretch);
        let other = 1 + random.below(255) as u32;
        let unit = &mut struck[at / width];
        let value: u32 = (*unit).into();
        *unit = F::unit(value ^ other << (8 * (at % width)));
    }
    struck
}

/// A text of strays alone: the first unit of each item becomes a trailing one.
/// UCS-4 has none; there it is a surrogate value.
pub fn strays<F: Form>(text: &[F::Unit]) -> Vec<F::Unit> {
    let stray = match size_of::<F::Unit>() {
        1 => 0x80, // trailing in both byte forms
        _ => 0xDC00,
    };
    let mut strays = text.to_vec();
    for item in reference::items::<F>(text) {
        strays[item.start] = F::unit(stray);
    }
    strays
}

const PLAIN: &[char] = &[
    'e', 't', 'a', 'o', 'i', 'n', 's', 'h', 'r', 'd', 'l', 'u', 'c', 'm', 'f', 'w', 'g', 'y', 'p',
    'b', 'v', 'k', 'x', 'j', 'q', 'z',
];
const ACCENTED: &[char] = &[
    'á', 'ä', 'å', 'ç', 'é', 'è', 'ê', 'í', 'ñ', 'ó', 'ö', 'ø', 'ß', 'ú', 'ü', 'ý', 'č', 'ď', 'ě',
    'ň', 'ř', 'š', 'ť', 'ů', 'ž', 'ł', 'ą', 'ę',
];
const ENDS: &[&str] = &[
    " ", " ", " ", " ", " ", " ", " ", ", ", ". ", "; ", " 17 ", ".\n",
];

/// Gives the characters of a class without end, a word at a time.
struct Maker {
    class: Class,
    random: Random,
    word: VecDeque<char>,
    /// Latin: letters so far, and which of each eight is accented.
    letters: usize,
    accented: usize,
    /// Mixed: the other classes in turn, whose turn it is and for how long.
    parts: Vec<Maker>,
    turn: usize,
    left: u32,
    stretch: std::ops::RangeInclusive<u32>,
}

impl Maker {
    fn new(class: Class, stretch: std::ops::RangeInclusive<u32>) -> Self {
        let parts = match class {
            Class::Mixed => Class::ALL[..5]
                .iter()
                .map(|&part| Maker::new(part, stretch.clone()))
                .collect(),
            _ => Vec::new(),
        };
        Maker {
            class,
            random: Random::new(class as u64),
            word: VecDeque::new(),
            letters: 0,
            accented: 0,
            turn: parts.len(),
            parts,
            left: 0,
            stretch,
        }
    }

    fn next(&mut self) -> u32 {
        if self.class == Class::Mixed {
            if self.left == 0 {
                self.turn = (self.turn + 1) % self.parts.len().max(1);
                self.left = self
                    .random
                    .between(*self.stretch.start(), *self.stretch.end());
            }
            self.left -= 1;
            return self.parts[self.turn].next();
        }
        loop {
            if let Some(character) = self.word.pop_front() {
                return character.into();
            }
            self.make_word();
        }
    }

    fn make_word(&mut self) {
        match self.class {
            Class::Ascii | Class::Latin | Class::Cyrillic => {
                for _ in 0..self.random.between(2, 9) {
                    let letter = self.letter();
                    self.word.push_back(letter);
                }
                let end = self.random.pick(ENDS);
                self.word.extend(end.chars());
            }
            Class::Cjk => {
                for _ in 0..self.random.between(8, 24) {
                    let ideograph = self.random.between(0x4E00, 0x9FA5);
                    self.word.push_back(scalar(ideograph));
                }
                let end = self.random.pick(&['。', '、', ',', '.', ' ']);
                self.word.push_back(end);
            }
            Class::Emoji => {
                for _ in 0..self.random.between(2, 8) {
                    let (low, high) = self.random.pick(&[
                        (0x1F600, 0x1F64F),
                        (0x1F300, 0x1F5FF),
                        (0x1F680, 0x1F6C5),
                    ]);
                    let emoji = self.random.between(low, high);
                    self.word.push_back(scalar(emoji));
                }
                self.word.push_back(' ');
            }
            Class::Mixed => unreachable!("its parts make the words"),
        }
    }

    fn letter(&mut self) -> char {
        match self.class {
            Class::Cyrillic => scalar(self.random.between(0x430, 0x44F)),
            Class::Latin => {
                if self.letters.is_multiple_of(8) {
                    self.accented = self.random.below(8);
                }
                let accented = self.letters % 8 == self.accented;
                self.letters += 1;
                self.random.pick(if accented { ACCENTED } else { PLAIN })
            }
            _ => self.random.pick(PLAIN),
        }
    }
}

fn scalar(value: u32) -> char {
    char::from_u32(value).expect("a scalar value")
}

#[cfg(test)]
mod tests {
    use super::*;
    use crate::reference::Content;

    fn string(class: Class, size: Size) -> String {
        characters(class, size).into_iter().map(scalar).collect()
    }

    /// How many characters take so many bytes of FSS-UTF.
    fn of_length(text: &str, length: usize) -> usize {
        text.chars().filter(|c| c.len_utf8() == length).count()
    }

    #[test]
    fn every_form_takes_a_long_text() {
        for class in Class::ALL {
            let text = characters(class, Size::Long);
            let lengths = [
                encode::<FssUtf>(&text).len(),
                encode::<UtfEbcdic>(&text).len(),
                encode::<Utf16>(&text).len(),
                encode::<Ucs4>(&text).len(),
            ];
            let longest = *lengths.iter().max().unwrap();
            assert!(longest <= LONGEST_TEXT, "{class:?}");
            assert!(longest > LONGEST_TEXT - 8, "{class:?} could be longer");
        }
    }

    #[test]
    fn a_short_text_has_at_most_forty_bytes() {
        for class in Class::ALL {
            let bytes = string(class, Size::Short).len();
            assert!((SHORT_TEXT - 3..=SHORT_TEXT).contains(&bytes), "{class:?}");
        }
    }

    #[test]
    fn texts_of_the_finder_are_full() {
        for class in Class::ALL {
            assert_eq!(longest_in::<FssUtf>(class).len(), LONGEST_TEXT);
            assert_eq!(longest_in::<UtfEbcdic>(class).len(), LONGEST_TEXT);
            assert_eq!(longest_in::<Utf16>(class).len(), LONGEST_TEXT);
            assert_eq!(longest_in::<Ucs4>(class).len(), LONGEST_TEXT);
        }
    }

    #[test]
    fn ascii_is_ascii() {
        assert!(string(Class::Ascii, Size::Long).is_ascii());
    }

    #[test]
    fn one_latin_letter_in_eight_has_two_bytes() {
        let text = string(Class::Latin, Size::Long);
        let letters = text.chars().filter(|c| c.is_alphabetic()).count();
        assert!((letters / 8..=letters / 8 + 1).contains(&of_length(&text, 2)));
        assert_eq!(
            of_length(&text, 1) + of_length(&text, 2),
            text.chars().count()
        );

        // At irregular places: the gaps between them take many lengths.
        let places: Vec<usize> = text
            .chars()
            .enumerate()
            .filter(|(_, c)| !c.is_ascii())
            .map(|(at, _)| at)
            .collect();
        let gaps: std::collections::BTreeSet<usize> =
            places.windows(2).map(|pair| pair[1] - pair[0]).collect();
        assert!(gaps.len() > 10);
    }

    #[test]
    fn the_other_classes_are_mostly_what_they_say() {
        for (class, length) in [(Class::Cyrillic, 2), (Class::Cjk, 3), (Class::Emoji, 4)] {
            let text = string(class, Size::Long);
            let share = of_length(&text, length) as f64 / text.chars().count() as f64;
            assert!((0.75..1.0).contains(&share), "{class:?}: {share}");
        }
    }

    #[test]
    fn mixed_has_all_lengths() {
        for size in Size::ALL {
            let text = string(Class::Mixed, size);
            for length in 1..=4 {
                assert!(of_length(&text, length) > 0, "{size:?}, {length} bytes");
            }
        }
    }

    #[test]
    fn one_byte_in_a_hundred_is_struck() {
        let text = characters(Class::Mixed, Size::Long);
        let bytes = encode::<FssUtf>(&text);
        let struck = strike::<FssUtf>(&bytes);
        let changed = bytes.iter().zip(&struck).filter(|(a, b)| a != b).count();
        assert_eq!(changed, bytes.len() / 100);

        let units = encode::<Ucs4>(&text);
        let struck = strike::<Ucs4>(&units);
        let changed: u32 = units
            .iter()
            .zip(&struck)
            .map(|(a, b)| {
                (a ^ b)
                    .to_le_bytes()
                    .iter()
                    .filter(|byte| **byte != 0)
                    .count() as u32
            })
            .sum();
        assert_eq!(changed as usize, 4 * units.len() / 100);

        let short = encode::<FssUtf>(&characters(Class::Latin, Size::Short));
        let struck = strike::<FssUtf>(&short);
        assert_eq!(short.iter().zip(&struck).filter(|(a, b)| a != b).count(), 1);
    }

    /// Each unit is a mark of its own, as far as the text goes.
    fn all_stray<F: Form>(class: Class) {
        let text = strays::<F>(&longest_in::<F>(class));
        assert_eq!(text.len(), LONGEST_TEXT);
        let items = reference::items::<F>(&text);
        assert_eq!(items.len(), LONGEST_TEXT, "{class:?}");
        assert!(items
            .iter()
            .all(|item| matches!(item.content, Content::Mark(_))));
    }

    #[test]
    fn strays_are_marks_only() {
        for class in Class::ALL {
            all_stray::<FssUtf>(class);
            all_stray::<UtfEbcdic>(class);
            all_stray::<Utf16>(class);
            all_stray::<Ucs4>(class);
        }
    }

    #[test]
    fn texts_are_the_same_in_every_run() {
        for class in Class::ALL {
            assert_eq!(characters(class, Size::Long), characters(class, Size::Long));
        }
    }
}
