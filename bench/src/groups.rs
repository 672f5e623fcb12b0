//! Who takes part in each call, and the comparison of their results.

use std::hint::black_box;
use std::io::{self, Write};

use crate::buffer::{Buffer, Place};
use crate::iconv::{self, Iconv};
use crate::library::{JkItem, Linked, LinkedTo};
use crate::reference::{self, Content, Form, FssUtf, Reading, Ucs4, Utf16, UtfEbcdic, MARK_VALUE};
use crate::text::{self, Class, Size};
use crate::timing::{self, Effort};
use crate::{icu, plain, standard};

/// The names of the contestants.
pub const OURS: &str = "ours";
pub const ICONV: &str = "iconv";
pub const STANDARD: &str = "Rust std";
pub const ICU: &str = "ICU";
pub const SECOND: &str = "second";
pub const PLAIN: &str = "plain";
pub const MEMCPY: &str = "memcpy";
pub const CONVERTER: &str = "converter";
pub const FAR: &str = "at 65000";

/// What was timed.
#[derive(Clone, Debug, PartialEq, Eq)]
pub struct Case {
    /// The export without its prefix.
    pub call: String,
    pub class: Class,
    pub size: Size,
    pub struck: bool,
}

impl Case {
    /// Whether a call reads the whole text.
    fn reads_all(&self) -> bool {
        !self.call.ends_with("_item_covering")
    }

    pub fn label(&self) -> String {
        let struck = if self.struck { " struck" } else { "" };
        format!(
            "{} {} {}{struck}",
            self.call,
            self.class.name(),
            self.size.name()
        )
    }
}

/// A case with the time of a call of each contestant, ours first.
pub struct Figures {
    pub case: Case,
    pub source_bytes: usize,
    pub times: Vec<(&'static str, f64)>,
}

impl Figures {
    pub fn ours(&self) -> f64 {
        self.times[0].1
    }

    /// Another's time over ours: above 1, ours is faster.
    pub fn ratio(&self, name: &str) -> Option<f64> {
        let (_, time) = self.times.iter().find(|(other, _)| *other == name)?;
        Some(time / self.ours())
    }

    pub fn gigabytes_per_second(&self) -> f64 {
        self.source_bytes as f64 / self.ours()
    }
}

/// Why a run ends before its time.
#[derive(Debug)]
pub enum Stop {
    /// Results differ, or something is missing.
    Failed(String),
    Output(io::Error),
}

impl From<io::Error> for Stop {
    fn from(why: io::Error) -> Self {
        Stop::Output(why)
    }
}

/// A run over all cases, or over those whose label has the words asked for.
pub struct Run<'a> {
    pub out: &'a mut dyn Write,
    /// None: results are compared, and nothing is timed.
    pub effort: Option<Effort>,
    pub only: String,
    pub figures: Vec<Figures>,
    pub compared: usize,
}

/// A name and what it does.
type Contestant<C> = (&'static str, Box<C>);
type Converter<F, G> = Contestant<dyn FnMut(&[F], &mut [G]) -> Option<usize>>;
type Decoder<F> = Contestant<dyn FnMut(&[F], &mut [u32], &mut [u32]) -> Option<usize>>;

fn id(form: &str) -> String {
    form.to_lowercase()
        .replace("utf-16", "utf16")
        .replace("ucs-4", "ucs4")
        .replace('-', "_")
}

impl Run<'_> {
    pub fn all(&mut self) -> Result<(), Stop> {
        self.conversions()?;
        self.lossy_decodings()?;
        self.finders()
    }

    fn asked(&self, case: &Case) -> bool {
        case.label().to_lowercase().contains(&self.only)
    }

    /// Times a case whose results have been compared. `once` makes so many
    /// calls.
    fn time<C>(
        &mut self,
        case: Case,
        source_bytes: usize,
        calls: usize,
        contestants: &mut [(&'static str, C)],
        once: impl FnMut(&mut (&'static str, C)),
    ) -> Result<(), Stop> {
        self.compared += 1;
        let Some(effort) = self.effort else {
            return Ok(());
        };
        let times = timing::time(contestants, effort, once);
        let names = contestants.iter().map(|(name, _)| *name);
        let figures = Figures {
            case,
            source_bytes,
            times: names
                .zip(times.iter().map(|time| time / calls as f64))
                .collect(),
        };
        self.print(&figures)?;
        self.figures.push(figures);
        Ok(())
    }

    /// A line for each case, under a heading for each call and size.
    fn print(&mut self, figures: &Figures) -> io::Result<()> {
        let case = &figures.case;
        let others = &figures.times[1..];
        let new = self.figures.last().is_none_or(|last| {
            (&last.case.call, last.case.size, last.case.struck)
                != (&case.call, case.size, case.struck)
        });
        if new {
            let struck = if case.struck { ", struck" } else { "" };
            writeln!(self.out, "\n{}, {}{struck}", case.call, case.size.name())?;
            let rate = if case.reads_all() { "GB/s" } else { "" };
            write!(self.out, "{:10}{:>10}{rate:>8}", "class", "ns")?;
            for (name, _) in others {
                write!(self.out, "{name:>11}")?;
            }
            writeln!(self.out)?;
        }
        let rate = match case.reads_all() {
            true => format!("{:.2}", figures.gigabytes_per_second()),
            false => String::new(),
        };
        write!(
            self.out,
            "{:10}{:>10.1}{rate:>8}",
            case.class.name(),
            figures.ours()
        )?;
        for (_, time) in others {
            write!(self.out, "{:>11.2}", time / figures.ours())?;
        }
        writeln!(self.out)?;
        self.out.flush()
    }

    fn conversions(&mut self) -> Result<(), Stop> {
        macro_rules! known {
            ($from:ty, $to:ty, $convert:ident, $count:ident) => {
                self.pair::<$from, $to>(
                    || {
                        vec![
                            (STANDARD, Box::new(standard::$convert) as _),
                            (ICU, Box::new(icu::$convert) as _),
                        ]
                    },
                    || {
                        vec![
                            (
                                STANDARD,
                                Box::new(|src: &[_], _: &mut [_]| standard::$count(src)) as _,
                            ),
                            (
                                ICU,
                                Box::new(|src: &[_], _: &mut [_]| icu::$count(src)) as _,
                            ),
                        ]
                    },
                )?
            };
        }
        macro_rules! through_utf16 {
            ($from:ty, $to:ty, $convert:ident, $count:ident) => {
                self.pair::<$from, $to>(
                    || {
                        let mut between = Buffer::new(Place::SecondResult, reference::LONGEST_TEXT);
                        vec![
                            (STANDARD, Box::new(standard::$convert) as _),
                            (
                                ICU,
                                Box::new(move |src: &[_], dst: &mut [_]| {
                                    icu::$convert(src, dst, &mut between)
                                }) as _,
                            ),
                        ]
                    },
                    || {
                        vec![(
                            STANDARD,
                            Box::new(|src: &[_], _: &mut [_]| standard::$count(src)) as _,
                        )]
                    },
                )?
            };
        }
        macro_rules! ebcdic {
            ($from:ty, $to:ty, $convert:ident) => {
                self.pair::<$from, $to>(
                    || {
                        vec![
                            (SECOND, Box::new(second_convert::<$from, $to>) as _),
                            (PLAIN, Box::new(plain::$convert) as _),
                        ]
                    },
                    Vec::new,
                )?
            };
        }
        known!(FssUtf, Utf16, utf8_to_utf16, utf8_to_utf16_count);
        through_utf16!(FssUtf, Ucs4, utf8_to_utf32, utf8_to_utf32_count);
        known!(Utf16, FssUtf, utf16_to_utf8, utf16_to_utf8_count);
        known!(Utf16, Ucs4, utf16_to_utf32, utf16_to_utf32_count);
        through_utf16!(Ucs4, FssUtf, utf32_to_utf8, utf32_to_utf8_count);
        known!(Ucs4, Utf16, utf32_to_utf16, utf32_to_utf16_count);
        ebcdic!(FssUtf, UtfEbcdic, fss_utf_to_utf_ebcdic);
        ebcdic!(Utf16, UtfEbcdic, utf16_to_utf_ebcdic);
        ebcdic!(Ucs4, UtfEbcdic, ucs4_to_utf_ebcdic);
        ebcdic!(UtfEbcdic, FssUtf, utf_ebcdic_to_fss_utf);
        ebcdic!(UtfEbcdic, Utf16, utf_ebcdic_to_utf16);
        ebcdic!(UtfEbcdic, Ucs4, utf_ebcdic_to_ucs4);
        Ok(())
    }

    /// A pair's converter and its measure.
    fn pair<F: LinkedTo<G>, G: Form>(
        &mut self,
        converters: impl Fn() -> Vec<Converter<F::Unit, G::Unit>>,
        counters: impl Fn() -> Vec<Converter<F::Unit, G::Unit>>,
    ) -> Result<(), Stop> {
        let call = format!("{}_to_{}", id(F::NAME), id(G::NAME));
        for size in Size::ALL {
            for class in Class::ALL {
                let mut contestants = vec![ours::<F, G>(OURS)];
                if let (Some(from), Some(to)) = (iconv::name_of(F::NAME), iconv::name_of(G::NAME)) {
                    let mut descriptor = Iconv::open(from, to);
                    contestants.push((
                        ICONV,
                        Box::new(move |src: &[_], dst: &mut [_]| descriptor.convert(src, dst)),
                    ));
                }
                contestants.extend(converters());
                contestants.push((MEMCPY, Box::new(|src: &[_], dst: &mut [_]| copy(src, dst))));
                let case = Case {
                    call: call.clone(),
                    class,
                    size,
                    struck: false,
                };
                self.conversion::<F, G>(case, contestants, true)?;
            }
        }
        for size in Size::ALL {
            for class in Class::ALL {
                let mut contestants: Vec<Converter<F::Unit, G::Unit>> = vec![
                    (
                        OURS,
                        Box::new(|src: &[_], _: &mut [_]| {
                            let measure = F::measure(src);
                            answer(measure.fault, measure.units)
                        }),
                    ),
                    ours::<F, G>(CONVERTER),
                ];
                contestants.extend(counters());
                let case = Case {
                    call: format!("{call}_length"),
                    class,
                    size,
                    struck: false,
                };
                self.conversion::<F, G>(case, contestants, false)?;
            }
        }
        Ok(())
    }

    fn conversion<F: LinkedTo<G>, G: Form>(
        &mut self,
        case: Case,
        mut contestants: Vec<Converter<F::Unit, G::Unit>>,
        writes: bool,
    ) -> Result<(), Stop> {
        if !self.asked(&case) {
            return Ok(());
        }
        contestants.retain(|(name, _)| icu::INSTALLED || *name != ICU);
        let characters = text::characters(case.class, case.size);
        let src = Buffer::text(&text::encode::<F>(&characters));
        let mut dst = Buffer::new(Place::Result, reference::most_units::<F, G>(src.len()));
        let expected = reference::convert::<F, G>(&src)
            .map_err(|why| Stop::Failed(format!("{}: {why:?}", case.label())))?;
        for (name, convert) in &mut contestants {
            dst.fill(G::Unit::default());
            let units = convert(&src, &mut dst);
            let same = if *name == MEMCPY {
                bytes(&dst)[..size_of_val(&*src)] == *bytes(&src)
            } else {
                units == Some(expected.len()) && (!writes || dst[..expected.len()] == expected)
            };
            if !same {
                return Err(differs(&case, name));
            }
        }
        self.time(
            case,
            size_of_val(&*src),
            1,
            &mut contestants,
            |(_, convert)| {
                black_box(convert(black_box(&src), black_box(&mut dst)));
            },
        )
    }

    fn lossy_decodings(&mut self) -> Result<(), Stop> {
        self.lossy::<FssUtf>(|| {
            vec![
                (STANDARD, Box::new(standard::utf8_lossy)),
                (SECOND, Box::new(second_lossy::<FssUtf>)),
            ]
        })?;
        self.lossy::<Utf16>(|| {
            vec![
                (STANDARD, Box::new(standard::utf16_lossy)),
                (SECOND, Box::new(second_lossy::<Utf16>)),
            ]
        })?;
        self.lossy::<Ucs4>(|| vec![(SECOND, Box::new(second_lossy::<Ucs4>))])?;
        self.lossy::<UtfEbcdic>(|| vec![(SECOND, Box::new(second_lossy::<UtfEbcdic>))])
    }

    fn lossy<F: Linked>(&mut self, others: impl Fn() -> Vec<Decoder<F::Unit>>) -> Result<(), Stop> {
        for size in Size::ALL {
            for struck in [false, true] {
                for class in Class::ALL {
                    let case = Case {
                        call: format!("{}_decode_lossy", id(F::NAME)),
                        class,
                        size,
                        struck,
                    };
                    let mut contestants: Vec<Decoder<F::Unit>> = vec![(
                        OURS,
                        Box::new(|src: &[_], values: &mut [_], starts: &mut [_]| {
                            let decoding = F::decode_lossy(src, values, starts);
                            answer(decoding.fault, decoding.items)
                        }),
                    )];
                    contestants.extend(others());
                    self.decoding::<F>(case, contestants)?;
                }
            }
        }
        Ok(())
    }

    fn decoding<F: Linked>(
        &mut self,
        case: Case,
        mut contestants: Vec<Decoder<F::Unit>>,
    ) -> Result<(), Stop> {
        if !self.asked(&case) {
            return Ok(());
        }
        let mut units = text::encode::<F>(&text::characters(case.class, case.size));
        if case.struck {
            units = text::strike::<F>(&units);
        }
        let src = Buffer::text(&units);
        let mut values = Buffer::new(Place::Result, src.len());
        let mut starts = Buffer::new(Place::SecondResult, src.len());
        let expected = reference::decode_lossy::<F>(&src)
            .map_err(|why| Stop::Failed(format!("{}: {why:?}", case.label())))?;
        for (name, decode) in &mut contestants {
            values.fill(0);
            starts.fill(0);
            let items =
                decode(&src, &mut values, &mut starts).ok_or_else(|| differs(&case, name))?;
            let (values, starts) = (&values[..items], &starts[..items]);
            let same = if *name == STANDARD && case.struck && F::NAME == FssUtf::NAME {
                // Rust has other marks than FSS-UTF, and fewer characters; those
                // that both have must come out.
                characters_of_both(values) == characters_of_both(&expected.values)
            } else {
                values == expected.values && starts == expected.starts
            };
            if !same {
                return Err(differs(&case, name));
            }
        }
        self.time(
            case,
            size_of_val(&*src),
            1,
            &mut contestants,
            |(_, decode)| {
                black_box(decode(
                    black_box(&src),
                    black_box(&mut values),
                    black_box(&mut starts),
                ));
            },
        )
    }

    fn finders(&mut self) -> Result<(), Stop> {
        self.finder::<FssUtf>()?;
        self.finder::<Utf16>()?;
        self.finder::<Ucs4>()?;
        self.finder::<UtfEbcdic>()
    }

    /// The finder in good texts, and among strays alone: if it sought a lead, it
    /// would go back to the text's beginning.
    fn finder<F: Linked>(&mut self) -> Result<(), Stop> {
        for struck in [false, true] {
            for class in Class::ALL {
                let case = Case {
                    call: format!("{}_item_covering", id(F::NAME)),
                    class,
                    size: Size::Long,
                    struck,
                };
                self.finding::<F>(case)?;
            }
        }
        Ok(())
    }

    /// At the offsets from 10 on and at those from 65,000 on, of a text that has
    /// the same units around both. A call is so short that one alone would tell
    /// of the loop around it.
    fn finding<F: Linked>(&mut self, case: Case) -> Result<(), Stop> {
        const NEAR: usize = 10;
        const DISTANT: usize = 65_000;
        const CALLS: usize = 8;
        if !self.asked(&case) {
            return Ok(());
        }
        let mut units = text::longest_in::<F>(case.class);
        // As far as an item at the last offset can reach.
        units.copy_within(..NEAR + CALLS + F::LONGEST_ITEM, DISTANT - NEAR);
        if case.struck {
            units = text::strays::<F>(&units);
        }
        let src = Buffer::text(&units);
        let mut contestants = [(OURS, NEAR), (FAR, DISTANT)];
        for (name, first) in contestants {
            for offset in first..first + CALLS {
                let expected = reference::item_covering::<F>(&src, offset);
                if F::item_covering(&src, offset) != JkItem::found(expected) {
                    return Err(differs(&case, name));
                }
            }
        }
        let bytes = size_of_val(&*src);
        self.time(case, bytes, CALLS, &mut contestants, |(_, first)| {
            for offset in *first..*first + CALLS {
                let item = F::item_covering(black_box(&src), black_box(offset));
                // What a caller reads; the whole struct would be copied.
                black_box(item.offset + item.length);
            }
        })
    }
}

fn differs(case: &Case, name: &str) -> Stop {
    let label = case.label();
    Stop::Failed(match name {
        OURS => format!("{label}: the library's result is not the second program's"),
        _ => format!("{label}: the result of {name} is not the library's"),
    })
}

fn answer(fault: u32, count: u64) -> Option<usize> {
    (fault == 0).then_some(count as usize)
}

fn ours<F: LinkedTo<G>, G: Form>(name: &'static str) -> Converter<F::Unit, G::Unit> {
    (
        name,
        Box::new(|src: &[_], dst: &mut [_]| {
            let conversion = F::convert(src, dst);
            answer(conversion.fault, conversion.units)
        }),
    )
}

/// The floor: the source copied as it is.
fn copy<F, G>(src: &[F], dst: &mut [G]) -> Option<usize> {
    let length = size_of_val(src);
    assert!(length <= size_of_val(dst));
    // SAFETY: the result has room, plain numbers take any bytes, and a slice
    // that is lent mutably overlaps no other.
    unsafe {
        std::ptr::copy_nonoverlapping(src.as_ptr().cast::<u8>(), dst.as_mut_ptr().cast(), length);
    }
    Some(length)
}

fn bytes<U>(units: &[U]) -> &[u8] {
    // SAFETY: plain numbers are so many bytes.
    unsafe { std::slice::from_raw_parts(units.as_ptr().cast(), size_of_val(units)) }
}

/// The second program's plain loop: an item, its encoding, the next item.
fn second_convert<F: Form, G: Form>(src: &[F::Unit], dst: &mut [G::Unit]) -> Option<usize> {
    let mut at = 0;
    let mut written = 0;
    loop {
        match reference::item_at::<F>(src, at) {
            Reading::End => return Some(written),
            Reading::Refusal { .. } => return None,
            Reading::Item(item) => {
                let Content::Character(value) = item.content else {
                    return None;
                };
                let legal = G::encode(value)?;
                dst.get_mut(written..written + legal.len())?
                    .copy_from_slice(&legal);
                written += legal.len();
                at += item.length;
            }
        }
    }
}

fn second_lossy<F: Form>(src: &[F::Unit], values: &mut [u32], starts: &mut [u32]) -> Option<usize> {
    let mut at = 0;
    let mut items = 0;
    loop {
        match reference::item_at::<F>(src, at) {
            Reading::End => return Some(items),
            Reading::Refusal { .. } => return None,
            Reading::Item(item) => {
                *values.get_mut(items)? = match item.content {
                    Content::Character(value) => value,
                    Content::Mark(_) => MARK_VALUE,
                };
                *starts.get_mut(items)? = at as u32;
                items += 1;
                at += item.length;
            }
        }
    }
}

/// The values that are characters in Rust too, its replacement left out.
fn characters_of_both(values: &[u32]) -> Vec<char> {
    values
        .iter()
        .filter_map(|&value| char::from_u32(value))
        .filter(|&character| character != char::REPLACEMENT_CHARACTER)
        .collect()
}
