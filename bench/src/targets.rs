//! What is asked of the library's speed, and the worst figure for each.

use crate::groups::{Figures, CONVERTER, FAR, ICONV, ICU, SECOND, STANDARD};
use crate::text::{Class, Size};

/// A least ratio over some of the cases.
pub struct Target {
    pub what: &'static str,
    pub least: f64,
    /// The ratio of a case that the target speaks of.
    ratio: fn(&Figures) -> Option<f64>,
}

/// The worst case of a target.
pub struct Worst<'a> {
    pub ratio: f64,
    pub figures: &'a Figures,
}

impl Target {
    /// None where no case of the target was timed.
    pub fn worst<'a>(&self, figures: &'a [Figures]) -> Option<Worst<'a>> {
        figures
            .iter()
            .filter_map(|figures| {
                let ratio = (self.ratio)(figures)?;
                Some(Worst { ratio, figures })
            })
            .min_by(|a, b| a.ratio.total_cmp(&b.ratio))
    }

    /// Held to what the page shows: two decimals.
    pub fn reached(&self, worst: &Worst) -> bool {
        (worst.ratio * 100.0).round() / 100.0 >= self.least
    }
}

fn against(figures: &Figures, name: &str, size: Size) -> Option<f64> {
    figures.ratio(name).filter(|_| figures.case.size == size)
}

/// FSS-UTF to or from UTF-16 against ICU.
fn icu(figures: &Figures) -> Option<f64> {
    let call = figures.case.call.as_str();
    let pair = ["fss_utf_to_utf16", "utf16_to_fss_utf"].contains(&call);
    against(figures, ICU, Size::Long).filter(|_| pair)
}

fn second(figures: &Figures, size: Size) -> Option<f64> {
    against(figures, SECOND, size).filter(|_| figures.case.call.contains("_to_"))
}

fn lossy(figures: &Figures, size: Size, struck: bool) -> Option<f64> {
    let case = &figures.case;
    against(figures, STANDARD, size)
        .filter(|_| case.call == "fss_utf_decode_lossy" && case.struck == struck)
}

/// The two times of a finder, whichever of them is the lesser.
fn near_and_far(figures: &Figures, struck: bool) -> Option<f64> {
    let ratio = figures.ratio(FAR)?;
    (figures.case.struck == struck).then_some(ratio.min(1.0 / ratio))
}

/// Whether the figures are of ASCII text.
fn ascii(figures: &Figures) -> bool {
    figures.case.class == Class::Ascii
}

pub const TARGETS: &[Target] = &[
    Target {
        what: "the six pairs of iconv against it, 64 KiB, every class",
        least: 1.5,
        ratio: |figures| against(figures, ICONV, Size::Long),
    },
    Target {
        what: "the six pairs of iconv against it, 64 KiB, ASCII",
        least: 8.0,
        ratio: |figures| against(figures, ICONV, Size::Long).filter(|_| ascii(figures)),
    },
    Target {
        what: "FSS-UTF to and from UTF-16 against ICU, 64 KiB, each class but Latin",
        least: 1.0,
        ratio: |figures| icu(figures).filter(|_| figures.case.class != Class::Latin),
    },
    Target {
        what: "FSS-UTF to and from UTF-16 against ICU, 64 KiB, Latin",
        least: 0.85,
        ratio: |figures| icu(figures).filter(|_| figures.case.class == Class::Latin),
    },
    Target {
        what: "FSS-UTF to and from UTF-16 against ICU, 64 KiB, ASCII",
        least: 3.0,
        ratio: |figures| icu(figures).filter(|_| ascii(figures)),
    },
    Target {
        what: "the six pairs of iconv against it, 40 bytes, every class",
        least: 1.0,
        ratio: |figures| against(figures, ICONV, Size::Short),
    },
    Target {
        what: "the six pairs of iconv against ICU, 40 bytes, ASCII",
        least: 1.0,
        ratio: |figures| {
            let converts = figures.ratio(ICONV).is_some();
            against(figures, ICU, Size::Short).filter(|_| converts && ascii(figures))
        },
    },
    Target {
        what: "the UTF-EBCDIC pairs against the second program, 64 KiB, every class",
        least: 1.0,
        ratio: |figures| second(figures, Size::Long),
    },
    Target {
        what: "the UTF-EBCDIC pairs against the second program, 64 KiB, ASCII",
        least: 2.0,
        ratio: |figures| second(figures, Size::Long).filter(|_| ascii(figures)),
    },
    Target {
        what: "the UTF-EBCDIC pairs against the second program, 40 bytes, every class",
        least: 1.0,
        ratio: |figures| second(figures, Size::Short),
    },
    Target {
        what: "the UTF-EBCDIC pairs against the second program, 40 bytes, ASCII",
        least: 2.0,
        ratio: |figures| second(figures, Size::Short).filter(|_| ascii(figures)),
    },
    Target {
        what: "each length call against its converter, 64 KiB, every class",
        least: 1.0,
        ratio: |figures| against(figures, CONVERTER, Size::Long),
    },
    Target {
        what: "each length call against its converter, 40 bytes, every class",
        least: 1.0,
        ratio: |figures| against(figures, CONVERTER, Size::Short),
    },
    Target {
        what: "item covering offset 10 and offset 65,000, good text, the lesser time over the greater",
        least: 0.9,
        ratio: |figures| near_and_far(figures, false),
    },
    Target {
        what: "item covering offset 10 and offset 65,000, struck text, the lesser time over the greater",
        least: 0.9,
        ratio: |figures| near_and_far(figures, true),
    },
    Target {
        what: "lossy decoding of FSS-UTF against Rust std, 64 KiB, good text",
        least: 1.0,
        ratio: |figures| lossy(figures, Size::Long, false),
    },
    Target {
        what: "lossy decoding of FSS-UTF against Rust std, 64 KiB, struck text",
        least: 1.0,
        ratio: |figures| lossy(figures, Size::Long, true),
    },
    Target {
        what: "lossy decoding of FSS-UTF against Rust std, 40 bytes, good text",
        least: 1.0,
        ratio: |figures| lossy(figures, Size::Short, false),
    },
    Target {
        what: "lossy decoding of FSS-UTF against Rust std, 40 bytes, struck text",
        least: 1.0,
        ratio: |figures| lossy(figures, Size::Short, true),
    },
];

/// The least ratio asked of a strict conversion of a long text, for the plot.
pub fn least_of_conversion(figures: &Figures) -> f64 {
    match (figures.ratio(ICONV).is_some(), ascii(figures)) {
        (true, true) => 8.0,
        (true, false) => 1.5,
        (false, true) => 2.0,
        (false, false) => 1.0,
    }
}

#[cfg(test)]
mod tests {
    use super::*;
    use crate::groups::{Case, OURS};

    fn figures(call: &str, class: Class, times: &[(&'static str, f64)]) -> Figures {
        Figures {
            case: Case {
                call: call.to_string(),
                class,
                size: Size::Long,
                struck: false,
            },
            source_bytes: 100,
            times: times.to_vec(),
        }
    }

    #[test]
    fn the_worst_case_counts() {
        let all = [
            figures(
                "fss_utf_to_utf16",
                Class::Ascii,
                &[(OURS, 2.0), (ICONV, 20.0)],
            ),
            figures("fss_utf_to_utf16", Class::Cjk, &[(OURS, 2.0), (ICONV, 2.5)]),
        ];
        let (every, ascii) = (&TARGETS[0], &TARGETS[1]);
        let worst = every.worst(&all).unwrap();
        assert_eq!((worst.ratio, worst.figures.case.class), (1.25, Class::Cjk));
        assert!(!every.reached(&worst));
        let worst = ascii.worst(&all).unwrap();
        assert!(worst.ratio == 10.0 && ascii.reached(&worst));
        assert!(TARGETS[2].worst(&all).is_none());
    }

    /// By one target for good text and by one for struck text.
    #[test]
    fn a_finder_is_held_both_ways() {
        for (struck, far) in [(false, 5.0), (false, 20.0), (true, 5.0), (true, 20.0)] {
            let mut all = [figures(
                "fss_utf_item_covering",
                Class::Ascii,
                &[(OURS, 10.0), (FAR, far)],
            )];
            all[0].case.struck = struck;
            let worst: Vec<f64> = TARGETS
                .iter()
                .filter_map(|target| Some(target.worst(&all)?.ratio))
                .collect();
            assert_eq!(worst, [0.5]);
        }
    }
}
