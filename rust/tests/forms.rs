//! A few cases of every call of every form: what a caller gets, what a refusal
//! leaves as it was, and both sides of the limit.

use std::fmt::Debug;

use jiskromet::{
    fss_utf, ucs4, utf16, utf_ebcdic, Content, Counts, Fault, Item, Refusal, MARK_VALUE, MAX_UNITS,
};

/// The values 34, B0, 20AC and 1F525 in each form.
const FSS_UTF: &[u8] = &[0x34, 0xC2, 0xB0, 0xE2, 0x82, 0xAC, 0xF0, 0x9F, 0x94, 0xA5];
const UTF_EBCDIC: &[u8] = &[0xF4, 0x47, 0xBF, 0x8B, 0x90, 0xAE, 0xB5, 0xFC, 0x9F, 0x90];
const UTF16: &[u16] = &[0x34, 0xB0, 0x20AC, 0xD83D, 0xDD25];
const UCS4: &[u32] = &[0x34, 0xB0, 0x20AC, 0x1F525];

fn refused<T>(fault: Fault, offset: usize) -> Result<T, Refusal> {
    Err(Refusal { fault, offset })
}

/// The conversion calls from one form to another.
struct Pair<S, T> {
    convert: fn(&[S], &mut [T]) -> Result<usize, Refusal>,
    length: fn(&[S]) -> Result<usize, Refusal>,
    vec: fn(&[S]) -> Result<Vec<T>, Refusal>,
    max_length: fn(usize) -> usize,
}

macro_rules! pair {
    ($form:ident, $convert:ident, $length:ident, $vec:ident, $max_length:ident) => {
        Pair {
            convert: $form::$convert,
            length: $form::$length,
            vec: $form::$vec,
            max_length: $form::$max_length,
        }
    };
}

macro_rules! to_fss_utf {
    ($form:ident) => {
        pair!(
            $form,
            to_fss_utf,
            to_fss_utf_length,
            to_fss_utf_vec,
            to_fss_utf_max_length
        )
    };
}

macro_rules! to_utf_ebcdic {
    ($form:ident) => {
        pair!(
            $form,
            to_utf_ebcdic,
            to_utf_ebcdic_length,
            to_utf_ebcdic_vec,
            to_utf_ebcdic_max_length
        )
    };
}

macro_rules! to_utf16 {
    ($form:ident) => {
        pair!(
            $form,
            to_utf16,
            to_utf16_length,
            to_utf16_vec,
            to_utf16_max_length
        )
    };
}

macro_rules! to_ucs4 {
    ($form:ident) => {
        pair!(
            $form,
            to_ucs4,
            to_ucs4_length,
            to_ucs4_vec,
            to_ucs4_max_length
        )
    };
}

impl<S: Copy, T: Copy + Debug + PartialEq + From<u8>> Pair<S, T> {
    /// The text becomes the result: with more room than it takes, with exactly
    /// that, and not with one cell less.
    fn gives(&self, text: &[S], result: &[T]) {
        let (fresh, units) = (T::from(0xEE), result.len());
        assert_eq!((self.length)(text), Ok(units));
        assert_eq!((self.vec)(text).as_deref(), Ok(result));
        assert!(units <= (self.max_length)(text.len()));

        let mut wide = vec![fresh; units + 3];
        assert_eq!((self.convert)(text, &mut wide), Ok(units));
        assert_eq!(wide[..units], *result);
        assert_eq!(wide[units..], [fresh; 3]);

        let mut exact = vec![fresh; units];
        assert_eq!((self.convert)(text, &mut exact), Ok(units));
        assert_eq!(exact, result);

        if units > 0 {
            let mut short = vec![fresh; units - 1];
            assert_eq!(
                (self.convert)(text, &mut short),
                refused(Fault::BufferTooShort, 0)
            );
            assert_eq!(short, vec![fresh; units - 1]);
        }
    }

    /// Every call refuses the text, and the buffer is as it was.
    fn refuses(&self, text: &[S], fault: Fault, offset: usize) {
        let fresh = T::from(0xEE);
        assert_eq!((self.length)(text), refused(fault, offset));
        assert_eq!((self.vec)(text), refused(fault, offset));
        for cells in [0, 64] {
            let mut buffer = vec![fresh; cells];
            assert_eq!((self.convert)(text, &mut buffer), refused(fault, offset));
            assert_eq!(buffer, vec![fresh; cells]);
        }
    }

    /// Every call refuses one item by fault 12 wherever it stands among others,
    /// many of which a call may pass in one step.
    fn turns_away(&self, item: &[S], others: &[&[S]]) {
        for other in others {
            for count in [0, 1, 7, 16, 33, 100] {
                let before = other.repeat(count);
                let text = [&before, item, &before, item].concat();
                self.refuses(&text, Fault::NonCharacter, before.len());
            }
        }
    }

    /// The room that a text can take is what this one takes.
    fn fills(&self, text: &[S]) {
        assert_eq!((self.length)(text), Ok((self.max_length)(text.len())));
    }

    /// The same for every pair: nothing becomes nothing, a text of the greatest
    /// length is taken, and one that is longer by one is not.
    fn keeps_the_limits(&self, zero: S, zero_there: T) {
        self.gives(&[], &[]);
        self.gives(&[zero; MAX_UNITS], &[zero_there; MAX_UNITS]);
        self.refuses(&[zero; MAX_UNITS + 1], Fault::SourceTooLong, 0);
        assert_eq!((self.max_length)(0), 0);
        assert_eq!((self.max_length)(usize::MAX), (self.max_length)(MAX_UNITS));
    }
}

type DecodeLossy<S> = fn(&[S], &mut [u32], &mut [u32]) -> Result<Counts, Refusal>;

/// All items from the front, and all from the back.
type BothWays = (Vec<Item>, Vec<Item>);

/// The calls that read a form.
struct Reader<S> {
    decode_lossy: DecodeLossy<S>,
    item_at: fn(&[S], usize) -> Result<Option<Item>, Refusal>,
    item_covering: fn(&[S], usize) -> Result<Item, Refusal>,
    items: fn(&[S]) -> Result<BothWays, Refusal>,
    longest: usize,
}

macro_rules! reader {
    ($form:ident) => {
        Reader {
            decode_lossy: $form::decode_lossy,
            item_at: $form::item_at,
            item_covering: $form::item_covering,
            items: |text| {
                let items = $form::items(text)?;
                let (least, most) = items.size_hint();
                let count = items.clone().count();
                assert!(least <= count && count <= most.expect("a greatest number of items"));
                Ok((items.clone().collect(), items.rev().collect()))
            },
            longest: $form::LONGEST_ITEM,
        }
    };
}

impl<S: Copy> Reader<S> {
    /// The text has these items: each with its length and what it is.
    fn reads(&self, text: &[S], expected: &[(usize, Content)]) {
        let mut offset = 0;
        let mut items = Vec::new();
        for &(length, content) in expected {
            let item = Item {
                offset,
                length,
                content,
            };
            assert!(length <= self.longest);
            assert_eq!((self.item_at)(text, offset), Ok(Some(item)));
            for covered in item.range() {
                assert_eq!((self.item_covering)(text, covered), Ok(item));
            }
            items.push(item);
            offset += length;
        }
        assert_eq!(offset, text.len());
        assert_eq!((self.item_at)(text, offset), Ok(None));
        for beyond in [offset, offset + 1, usize::MAX] {
            assert_eq!(
                (self.item_covering)(text, beyond),
                refused(Fault::OffsetOutOfRange, beyond)
            );
        }
        for beyond in [offset + 1, usize::MAX] {
            assert_eq!(
                (self.item_at)(text, beyond),
                refused(Fault::OffsetOutOfRange, beyond)
            );
        }

        let reversed: Vec<_> = items.iter().rev().copied().collect();
        assert_eq!((self.items)(text), Ok((items.clone(), reversed)));
        self.decodes(text, &items);
    }

    /// The lossy decoding gives these items: with more room than they take, with
    /// exactly that, and not with one cell less in either buffer.
    fn decodes(&self, text: &[S], items: &[Item]) {
        let count = items.len();
        let values: Vec<_> = items
            .iter()
            .map(|item| item.value().unwrap_or(MARK_VALUE))
            .collect();
        let starts: Vec<_> = items.iter().map(|item| item.offset as u32).collect();
        let marks = items.iter().filter(|item| item.value().is_err()).count();

        for (more_values, more_starts) in [(0, 0), (2, 0), (0, 3)] {
            let mut values_cells = vec![0xEE; count + more_values];
            let mut starts_cells = vec![0xDD; count + more_starts];
            assert_eq!(
                (self.decode_lossy)(text, &mut values_cells, &mut starts_cells),
                Ok(Counts {
                    items: count,
                    marks
                })
            );
            assert_eq!(values_cells[..count], values);
            assert_eq!(values_cells[count..], vec![0xEE; more_values]);
            assert_eq!(starts_cells[..count], starts);
            assert_eq!(starts_cells[count..], vec![0xDD; more_starts]);
        }
        if count > 0 {
            for (values_len, starts_len) in [(count - 1, count), (count, count - 1)] {
                let (mut values, mut starts) = (vec![0xEE; values_len], vec![0xDD; starts_len]);
                assert_eq!(
                    (self.decode_lossy)(text, &mut values, &mut starts),
                    refused(Fault::BufferTooShort, 0)
                );
                assert_eq!(values, vec![0xEE; values_len]);
                assert_eq!(starts, vec![0xDD; starts_len]);
            }
        }
    }

    /// The same for every form: the empty text has no item, a text of the
    /// greatest length is read, and one that is longer by one is not.
    fn keeps_the_limits(&self, zero: S) {
        self.reads(&[], &[]);
        self.reads(
            &[zero; MAX_UNITS],
            &vec![(1, Content::Character(0)); MAX_UNITS],
        );

        let longer = [zero; MAX_UNITS + 1];
        let (mut values, mut starts) = ([0xEE; 4], [0xDD; 4]);
        assert_eq!(
            (self.decode_lossy)(&longer, &mut values, &mut starts),
            refused(Fault::SourceTooLong, 0)
        );
        assert_eq!((values, starts), ([0xEE; 4], [0xDD; 4]));
        for offset in [0, MAX_UNITS + 1, MAX_UNITS + 2] {
            assert_eq!(
                (self.item_at)(&longer, offset),
                refused(Fault::SourceTooLong, 0)
            );
            assert_eq!(
                (self.item_covering)(&longer, offset),
                refused(Fault::SourceTooLong, 0)
            );
        }
        assert_eq!((self.items)(&longer), refused(Fault::SourceTooLong, 0));
    }
}

fn character(length: usize, value: u32) -> (usize, Content) {
    (length, Content::Character(value))
}

fn mark(length: usize, fault: Fault) -> (usize, Content) {
    (length, Content::Mark(fault))
}

#[test]
fn fss_utf_converts() {
    let (host, panel, gateway) = (
        to_utf_ebcdic!(fss_utf),
        to_utf16!(fss_utf),
        to_ucs4!(fss_utf),
    );
    host.gives(FSS_UTF, UTF_EBCDIC);
    panel.gives(FSS_UTF, UTF16);
    gateway.gives(FSS_UTF, UCS4);
    gateway.gives(
        &[
            0xED, 0x9F, 0xBF, 0xEE, 0x80, 0x80, 0xFD, 0xBF, 0xBF, 0xBF, 0xBF, 0xBF,
        ],
        &[0xD7FF, 0xE000, 0x7FFF_FFFF],
    );

    host.fills(&[0xDF, 0xBF]);
    panel.fills(b"A");
    gateway.fills(b"A");
    host.keeps_the_limits(0, 0);
    panel.keeps_the_limits(0, 0);
    gateway.keeps_the_limits(0, 0);
}

#[test]
fn fss_utf_refuses() {
    let cases: [(&[u8], Fault, usize); 8] = [
        (&[0x41, 0xE2, 0x89, 0x41], Fault::MissingTrailing, 1),
        (&[0xC2, 0xA9, 0x80], Fault::StrayTrailing, 2),
        (&[0x41, 0x42, 0xFE], Fault::InvalidUnit, 2),
        (&[0xC0, 0x80, 0xFF], Fault::Overlong, 0),
        (&[0xFC], Fault::MissingTrailing, 0),
        (&[0x41, 0xED, 0xA0, 0x80], Fault::Surrogate, 1),
        (&[0xF0, 0x8D, 0xA0, 0x80], Fault::Overlong, 0),
        (&[0xF0, 0x8F, 0xBF, 0xBF], Fault::Overlong, 0),
    ];
    for (text, fault, offset) in cases {
        to_utf_ebcdic!(fss_utf).refuses(text, fault, offset);
        to_utf16!(fss_utf).refuses(text, fault, offset);
        to_ucs4!(fss_utf).refuses(text, fault, offset);
    }
    to_utf16!(fss_utf).refuses(&[0xF4, 0x90, 0x80, 0x80], Fault::Unrepresentable, 0);
}

#[test]
fn fss_utf_reads() {
    let reader = reader!(fss_utf);
    reader.reads(
        FSS_UTF,
        &[
            character(1, 0x34),
            character(2, 0xB0),
            character(3, 0x20AC),
            character(4, 0x1F525),
        ],
    );
    reader.reads(
        &[
            0xE2, 0x89, 0x41, 0x80, 0xFE, 0xC0, 0x80, 0xED, 0xA0, 0x80, 0xFD, 0xBF, 0xBF, 0xBF,
            0xBF, 0xBF, 0x80,
        ],
        &[
            mark(2, Fault::MissingTrailing),
            character(1, 0x41),
            mark(1, Fault::StrayTrailing),
            mark(1, Fault::InvalidUnit),
            mark(2, Fault::Overlong),
            mark(3, Fault::Surrogate),
            character(6, 0x7FFF_FFFF),
            mark(1, Fault::StrayTrailing),
        ],
    );
    reader.keeps_the_limits(0);
}

#[test]
fn utf_ebcdic_converts() {
    let (controller, panel, gateway) = (
        to_fss_utf!(utf_ebcdic),
        to_utf16!(utf_ebcdic),
        to_ucs4!(utf_ebcdic),
    );
    controller.gives(UTF_EBCDIC, FSS_UTF);
    panel.gives(UTF_EBCDIC, UTF16);
    gateway.gives(UTF_EBCDIC, UCS4);
    gateway.gives(
        &[0xC1, 0xE1, 0xFE, 0xFE, 0xFE, 0xFE, 0xFE, 0xFE],
        &[0x41, 0x7FFF_FFFF],
    );

    controller.fills(&[0x20, 0x20]);
    panel.fills(&[0xC1]);
    gateway.fills(&[0xC1]);
    controller.keeps_the_limits(0, 0);
    panel.keeps_the_limits(0, 0);
    gateway.keeps_the_limits(0, 0);
}

#[test]
fn utf_ebcdic_refuses() {
    let cases: [(&[u8], Fault, usize); 6] = [
        (&[0xF4, 0x9A, 0x80, 0xC1], Fault::MissingTrailing, 1),
        (&[0x47, 0x80, 0x80], Fault::StrayTrailing, 2),
        (&[0xC1, 0x8A, 0xFE, 0xFE], Fault::Overlong, 1),
        (&[0xE1], Fault::MissingTrailing, 0),
        (&[0xC1, 0xB3, 0xDD, 0x80, 0x80], Fault::Surrogate, 1),
        (&[0x6A, 0x8C, 0xFE, 0xFE, 0xFE], Fault::Overlong, 0),
    ];
    for (text, fault, offset) in cases {
        to_fss_utf!(utf_ebcdic).refuses(text, fault, offset);
        to_utf16!(utf_ebcdic).refuses(text, fault, offset);
        to_ucs4!(utf_ebcdic).refuses(text, fault, offset);
    }
    to_utf16!(utf_ebcdic).refuses(
        &[0xC1, 0xE1, 0xFE, 0xFE, 0xFE, 0xFE, 0xFE, 0xFE],
        Fault::Unrepresentable,
        1,
    );
}

#[test]
fn utf_ebcdic_reads() {
    let reader = reader!(utf_ebcdic);
    reader.reads(
        UTF_EBCDIC,
        &[
            character(1, 0x34),
            character(2, 0xB0),
            character(3, 0x20AC),
            character(4, 0x1F525),
        ],
    );
    reader.reads(
        &[
            0x9A, 0x80, 0xC1, 0x80, 0x42, 0x80, 0xB3, 0xDD, 0x80, 0x80, 0xE1, 0xFE, 0xFE, 0xFE,
            0xFE, 0xFE, 0xFE, 0x80,
        ],
        &[
            mark(2, Fault::MissingTrailing),
            character(1, 0x41),
            mark(1, Fault::StrayTrailing),
            mark(2, Fault::Overlong),
            mark(4, Fault::Surrogate),
            character(7, 0x7FFF_FFFF),
            mark(1, Fault::StrayTrailing),
        ],
    );
    reader.keeps_the_limits(0);
}

#[test]
fn utf16_converts() {
    let (controller, host, gateway) = (to_fss_utf!(utf16), to_utf_ebcdic!(utf16), to_ucs4!(utf16));
    controller.gives(UTF16, FSS_UTF);
    host.gives(UTF16, UTF_EBCDIC);
    gateway.gives(UTF16, UCS4);
    gateway.gives(
        &[0xFEFF, 0xFFFD, 0xDBFF, 0xDFFF],
        &[0xFEFF, 0xFFFD, 0x10_FFFF],
    );

    controller.fills(&[0xFFFD]);
    host.fills(&[0xFFFD]);
    gateway.fills(&[0x41]);
    controller.keeps_the_limits(0, 0);
    host.keeps_the_limits(0, 0);
    gateway.keeps_the_limits(0, 0);
}

#[test]
fn utf16_refuses() {
    let cases: [(&[u16], Fault, usize); 3] = [
        (&[0x41, 0xD800, 0x41], Fault::MissingTrailing, 1),
        (&[0xDC00], Fault::StrayTrailing, 0),
        (&[0xD800, 0xDC00, 0xD800], Fault::MissingTrailing, 2),
    ];
    for (text, fault, offset) in cases {
        to_fss_utf!(utf16).refuses(text, fault, offset);
        to_utf_ebcdic!(utf16).refuses(text, fault, offset);
        to_ucs4!(utf16).refuses(text, fault, offset);
    }
}

#[test]
fn utf16_reads() {
    let reader = reader!(utf16);
    reader.reads(
        UTF16,
        &[
            character(1, 0x34),
            character(1, 0xB0),
            character(1, 0x20AC),
            character(2, 0x1F525),
        ],
    );
    reader.reads(
        &[0xDC00, 0xD800, 0xD800, 0xDC00, 0xDC00, 0xD800],
        &[
            mark(1, Fault::StrayTrailing),
            mark(1, Fault::MissingTrailing),
            character(2, 0x1_0000),
            mark(1, Fault::StrayTrailing),
            mark(1, Fault::MissingTrailing),
        ],
    );
    reader.keeps_the_limits(0);
}

#[test]
fn ucs4_converts() {
    let (controller, host, panel) = (to_fss_utf!(ucs4), to_utf_ebcdic!(ucs4), to_utf16!(ucs4));
    controller.gives(UCS4, FSS_UTF);
    host.gives(UCS4, UTF_EBCDIC);
    panel.gives(UCS4, UTF16);
    controller.gives(&[0xD7FF, 0xE000], &[0xED, 0x9F, 0xBF, 0xEE, 0x80, 0x80]);

    controller.fills(&[0x7FFF_FFFF]);
    host.fills(&[0x7FFF_FFFF]);
    panel.fills(&[0x1_0000]);
    controller.keeps_the_limits(0, 0);
    host.keeps_the_limits(0, 0);
    panel.keeps_the_limits(0, 0);
}

#[test]
fn ucs4_refuses() {
    for unit in [0x8000_0000, 0xFFFF_FFFF] {
        to_fss_utf!(ucs4).refuses(&[0x41, unit], Fault::InvalidUnit, 1);
        to_utf_ebcdic!(ucs4).refuses(&[0x41, unit], Fault::InvalidUnit, 1);
        to_utf16!(ucs4).refuses(&[0x41, unit], Fault::InvalidUnit, 1);
    }
    for value in [0xD800, 0xDFFF] {
        to_fss_utf!(ucs4).refuses(&[0x41, value], Fault::Surrogate, 1);
        to_utf_ebcdic!(ucs4).refuses(&[0x41, value], Fault::Surrogate, 1);
        to_utf16!(ucs4).refuses(&[0x41, value], Fault::Surrogate, 1);
    }
    for value in [0x11_0000, 0x7FFF_FFFF] {
        to_utf16!(ucs4).refuses(&[0x41, 0x42, value], Fault::Unrepresentable, 2);
    }
}

#[test]
fn ucs4_reads() {
    let reader = reader!(ucs4);
    reader.reads(
        UCS4,
        &[
            character(1, 0x34),
            character(1, 0xB0),
            character(1, 0x20AC),
            character(1, 0x1F525),
        ],
    );
    reader.reads(
        &[0x7FFF_FFFF, 0x8000_0000, 0xD800, MARK_VALUE],
        &[
            character(1, 0x7FFF_FFFF),
            mark(1, Fault::InvalidUnit),
            mark(1, Fault::Surrogate),
            mark(1, Fault::InvalidUnit),
        ],
    );
    reader.keeps_the_limits(0);
}

/// FFFE and FFFF in each form.
const FSS_UTF_TWO: [&[u8]; 2] = [&[0xEF, 0xBF, 0xBE], &[0xEF, 0xBF, 0xBF]];
const UTF_EBCDIC_TWO: [&[u8]; 2] = [&[0xB3, 0xFE, 0xFE, 0xFD], &[0xB3, 0xFE, 0xFE, 0xFE]];
const UTF16_TWO: [&[u16]; 2] = [&[0xFFFE], &[0xFFFF]];
const UCS4_TWO: [&[u32]; 2] = [&[0xFFFE], &[0xFFFF]];

#[test]
fn fffe_and_ffff_are_not_converted() {
    // The others are 34, 20AC and FFFD.
    let others: [&[u8]; 3] = [&[0x34], &[0xE2, 0x82, 0xAC], &[0xEF, 0xBF, 0xBD]];
    for item in FSS_UTF_TWO {
        to_utf_ebcdic!(fss_utf).turns_away(item, &others);
        to_utf16!(fss_utf).turns_away(item, &others);
        to_ucs4!(fss_utf).turns_away(item, &others);
    }
    let others: [&[u8]; 3] = [&[0xF4], &[0x8B, 0x90, 0xAE], &[0xB3, 0xFE, 0xFE, 0xFC]];
    for item in UTF_EBCDIC_TWO {
        to_fss_utf!(utf_ebcdic).turns_away(item, &others);
        to_utf16!(utf_ebcdic).turns_away(item, &others);
        to_ucs4!(utf_ebcdic).turns_away(item, &others);
    }
    let others: [&[u16]; 3] = [&[0x34], &[0x20AC], &[0xFFFD]];
    for item in UTF16_TWO {
        to_fss_utf!(utf16).turns_away(item, &others);
        to_utf_ebcdic!(utf16).turns_away(item, &others);
        to_ucs4!(utf16).turns_away(item, &others);
    }
    let others: [&[u32]; 3] = [&[0x34], &[0x20AC], &[0xFFFD]];
    for item in UCS4_TWO {
        to_fss_utf!(ucs4).turns_away(item, &others);
        to_utf_ebcdic!(ucs4).turns_away(item, &others);
        to_utf16!(ucs4).turns_away(item, &others);
    }
}

/// Of FFFE or FFFF and another fault, the one at the lower offset decides; a
/// text that is too long is refused before either.
#[test]
fn fffe_and_ffff_take_their_turn() {
    for value in [0xFFFE, 0xFFFF] {
        let panel = to_utf16!(ucs4);
        for (other, fault) in [
            (0x8000_0000, Fault::InvalidUnit),
            (0xD800, Fault::Surrogate),
            (0x11_0000, Fault::Unrepresentable),
        ] {
            panel.refuses(&[0x41, value, other], Fault::NonCharacter, 1);
            panel.refuses(&[0x41, other, value], fault, 1);
        }
        panel.refuses(&[value; MAX_UNITS], Fault::NonCharacter, 0);
        panel.refuses(&[value; MAX_UNITS + 1], Fault::SourceTooLong, 0);
    }
}

#[test]
fn fffe_and_ffff_are_read() {
    for (index, value) in [(0, 0xFFFE), (1, 0xFFFF)] {
        let text = [&[0x34], FSS_UTF_TWO[index], &[0x34, 0x80]].concat();
        let items = |length| {
            [
                character(1, 0x34),
                character(length, value),
                character(1, 0x34),
                mark(1, Fault::StrayTrailing),
            ]
        };
        reader!(fss_utf).reads(&text, &items(3));
        let text = [&[0xF4], UTF_EBCDIC_TWO[index], &[0xF4, 0x80]].concat();
        reader!(utf_ebcdic).reads(&text, &items(4));
        let text = [&[0x34], UTF16_TWO[index], &[0x34, 0xDC00]].concat();
        reader!(utf16).reads(&text, &items(1));
        let text = [&[0x34], UCS4_TWO[index], &[0x34]].concat();
        reader!(ucs4).reads(&text, &items(1)[..3]);
    }
}

/// What comes near to FFFE and FFFF is converted: the values 3FFF (EF BF BF in
/// UTF-EBCDIC's I8), FDD0, FEFF, FFFD, 10000, 1FFFE and 1FFFF in each form.
#[test]
fn neighbours_of_fffe_and_ffff_are_converted() {
    let controller = [
        0xE3, 0xBF, 0xBF, 0xEF, 0xB7, 0x90, 0xEF, 0xBB, 0xBF, 0xEF, 0xBF, 0xBD, 0xF0, 0x90, 0x80,
        0x80, 0xF0, 0x9F, 0xBF, 0xBE, 0xF0, 0x9F, 0xBF, 0xBF,
    ];
    let host = [
        0xFB, 0xFE, 0xFE, 0xB3, 0xFE, 0xBC, 0xBF, 0xB3, 0xFE, 0xDE, 0xFE, 0xB3, 0xFE, 0xFE, 0xFC,
        0xB4, 0x80, 0x80, 0x80, 0xB5, 0xFE, 0xFE, 0xFD, 0xB5, 0xFE, 0xFE, 0xFE,
    ];
    let panel = [
        0x3FFF, 0xFDD0, 0xFEFF, 0xFFFD, 0xD800, 0xDC00, 0xD83F, 0xDFFE, 0xD83F, 0xDFFF,
    ];
    let gateway = [0x3FFF, 0xFDD0, 0xFEFF, 0xFFFD, 0x1_0000, 0x1_FFFE, 0x1_FFFF];

    to_utf_ebcdic!(fss_utf).gives(&controller, &host);
    to_utf16!(fss_utf).gives(&controller, &panel);
    to_ucs4!(fss_utf).gives(&controller, &gateway);
    to_fss_utf!(utf_ebcdic).gives(&host, &controller);
    to_utf16!(utf_ebcdic).gives(&host, &panel);
    to_ucs4!(utf_ebcdic).gives(&host, &gateway);
    to_fss_utf!(utf16).gives(&panel, &controller);
    to_utf_ebcdic!(utf16).gives(&panel, &host);
    to_ucs4!(utf16).gives(&panel, &gateway);
    to_fss_utf!(ucs4).gives(&gateway, &controller);
    to_utf_ebcdic!(ucs4).gives(&gateway, &host);
    to_utf16!(ucs4).gives(&gateway, &panel);
}

/// A result may be longer than a text can be; it is then not read again.
#[test]
fn a_result_beyond_the_limit_is_not_read_again() {
    let bytes = ucs4::to_fss_utf_vec(&[0x7FFF_FFFF; 10_923]).expect("a text within the limit");
    assert_eq!(bytes.len(), 65_538);
    to_ucs4!(fss_utf).refuses(&bytes, Fault::SourceTooLong, 0);
}

#[test]
fn items_meet_in_the_middle() {
    let mut items = fss_utf::items(b"A\xE2\x82B\xC2\xB0").expect("a text within the limit");
    assert_eq!(items.next().map(|item| item.range()), Some(0..1));
    assert_eq!(items.next_back().map(|item| item.range()), Some(4..6));
    assert_eq!(items.next_back().map(|item| item.range()), Some(3..4));
    assert_eq!(items.next().map(|item| item.range()), Some(1..3));
    assert_eq!(items.next(), None);
    assert_eq!(items.next_back(), None);
    assert_eq!(items.next(), None);
}

/// The C header beside this package.
const HEADER: &str = include_str!("../../include/jiskromet.h");

#[test]
fn numbers_are_the_headers() {
    for (name, value) in [
        ("MAX_UNITS", MAX_UNITS),
        ("FSS_UTF_LONGEST_ITEM", fss_utf::LONGEST_ITEM),
        ("UTF_EBCDIC_LONGEST_ITEM", utf_ebcdic::LONGEST_ITEM),
        ("UTF16_LONGEST_ITEM", utf16::LONGEST_ITEM),
        ("UCS4_LONGEST_ITEM", ucs4::LONGEST_ITEM),
    ] {
        assert!(
            HEADER.contains(&format!("#define JK_{name} {value}\n")),
            "{name}"
        );
    }
    let version = env!("CARGO_PKG_VERSION");
    assert!(HEADER.contains(&format!("#define JK_VERSION \"{version}\"\n")));
}

#[test]
fn faults_have_their_numbers_and_words() {
    for (number, fault) in [
        (1, Fault::SourceTooLong),
        (2, Fault::MissingTrailing),
        (3, Fault::StrayTrailing),
        (4, Fault::InvalidUnit),
        (5, Fault::Overlong),
        (6, Fault::Unrepresentable),
        (7, Fault::BufferTooShort),
        (9, Fault::OffsetOutOfRange),
        (10, Fault::Surrogate),
        (12, Fault::NonCharacter),
    ] {
        assert_eq!(fault.number(), number);
        assert_eq!(Fault::from_number(number), Some(fault));
        assert!(HEADER.contains(&format!(": return \"{fault}\";")));
    }
    for number in [0, 8, 11, 13, u32::MAX] {
        assert_eq!(Fault::from_number(number), None);
    }

    for (fault, offset, words) in [
        (
            Fault::MissingTrailing,
            4,
            "fault 2 at offset 4: a lead has too few trailing units",
        ),
        (
            Fault::SourceTooLong,
            0,
            "fault 1: the text has more than 65,536 code units",
        ),
    ] {
        let refusal: Box<dyn std::error::Error> = Box::new(Refusal { fault, offset });
        assert_eq!(refusal.to_string(), words);
    }
}
