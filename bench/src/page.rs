//! The figures as docs/SPEED.md shows them.

use std::fmt::Write;
use std::fs;
use std::path::Path;
use std::process::Command;
use std::time::{SystemTime, UNIX_EPOCH};

use crate::groups::{Figures, CONVERTER, FAR, ICONV, ICU, MEMCPY, PLAIN, SECOND, STANDARD};
use crate::sizes::Sizes;
use crate::targets::TARGETS;
use crate::text::{Class, Size};
use crate::timing::Effort;
use crate::{iconv, icu};

const BEGIN: &str = "<!-- figures: begin -->";
const END: &str = "<!-- figures: end -->";

/// Puts the figures between the page's markers, and leaves the rest alone.
pub fn update(path: &Path, figures: &str) -> Result<(), String> {
    let tell = |why: &dyn std::fmt::Display| format!("{}: {why}", path.display());
    let page = fs::read_to_string(path).map_err(|why| tell(&why))?;
    let page = replaced(&page, figures).ok_or_else(|| tell(&"the markers are missing"))?;
    fs::write(path, page).map_err(|why| tell(&why))
}

fn replaced(page: &str, figures: &str) -> Option<String> {
    let (before, rest) = page.split_once(BEGIN)?;
    let (_, after) = rest.split_once(END)?;
    Some(format!("{before}{BEGIN}\n\n{figures}\n{END}{after}"))
}

/// A ratio or a time with as many decimals as tell something.
fn number(value: f64) -> String {
    let decimals = match value {
        100.0.. => 0,
        10.0.. => 1,
        _ => 2,
    };
    format!("{value:.decimals$}")
}

fn table(page: &mut String, heads: &[&str], rows: &[Vec<String>]) {
    let classes = Class::ALL.map(Class::name);
    let heads: Vec<&str> = heads.iter().copied().chain(classes).collect();
    let rules: Vec<&str> = heads
        .iter()
        .map(|head| if classes.contains(head) { "--:" } else { "---" })
        .collect();
    page.push_str(&format!(
        "| {} |\n|{}|\n",
        heads.join(" | "),
        rules.join("|")
    ));
    for row in rows {
        page.push_str(&format!("| {} |\n", row.join(" | ")));
    }
    page.push('\n');
}

/// All figures of a run, in the order in which they were taken.
pub struct Results<'a>(pub &'a [Figures]);

impl<'a> Results<'a> {
    /// The calls that have a case of this sort, in order.
    fn calls(&self, size: Size, wanted: impl Fn(&Figures) -> bool) -> Vec<&'a str> {
        let mut calls = Vec::new();
        for figures in self.0 {
            let call = figures.case.call.as_str();
            if figures.case.size == size && wanted(figures) && !calls.contains(&call) {
                calls.push(call);
            }
        }
        calls
    }

    /// A value for each class.
    pub fn row(
        &self,
        call: &str,
        size: Size,
        struck: bool,
        value: impl Fn(&Figures) -> Option<f64>,
    ) -> Vec<Option<f64>> {
        Class::ALL
            .iter()
            .map(|&class| {
                let figures = self.0.iter().find(|figures| {
                    let case = &figures.case;
                    case.call == call
                        && case.size == size
                        && case.struck == struck
                        && case.class == class
                })?;
                value(figures)
            })
            .collect()
    }

    /// The strict conversions that a contestant takes part in.
    pub fn conversions(&self, size: Size, contestant: &str) -> Vec<&'a str> {
        self.calls(size, |figures| {
            figures.case.call.contains("_to_")
                && figures.ratio(contestant).is_some()
                && figures.ratio(CONVERTER).is_none()
        })
    }
}

fn cells(heads: &[&str], values: Vec<Option<f64>>) -> Vec<String> {
    let values = values.into_iter();
    heads
        .iter()
        .map(|head| head.to_string())
        .chain(values.map(|value| value.map_or("not installed".to_string(), number)))
        .collect()
}

/// `fss_utf_to_utf16` as the page says it.
pub fn words(call: &str) -> String {
    call.trim_end_matches("_length")
        .split("_to_")
        .map(|form| {
            form.trim_end_matches("_decode_lossy")
                .trim_end_matches("_item_covering")
                .to_uppercase()
                .replace('_', "-")
                .replace("UTF16", "UTF-16")
                .replace("UCS4", "UCS-4")
        })
        .collect::<Vec<_>>()
        .join(" to ")
}

/// The part of the page between its markers.
pub fn figures(
    all: &[Figures],
    effort: Effort,
    sizes: &Sizes,
    depths: &[(&'static str, usize)],
) -> String {
    let mut page = String::new();
    machine(&mut page, effort);
    targets(&mut page, all);
    library(&mut page, sizes, depths);
    let results = Results(all);
    for size in Size::ALL {
        strict(&mut page, &results, size);
    }
    lengths(&mut page, &results);
    lossy(&mut page, &results);
    finder(&mut page, &results);
    speeds(&mut page, &results);
    page.truncate(page.trim_end().len());
    page.push('\n');
    page
}

fn machine(page: &mut String, effort: Effort) {
    let icu = match icu::version() {
        Some(version) => format!("ICU {version}"),
        None => "no ICU".to_string(),
    };
    let _ = writeln!(
        page,
        "Taken on {} on {}, with {}, {}, glibc {} and {icu}. Each figure is the least time of {} rounds.\n",
        date(),
        processor(),
        env!("BENCH_RUSTC"),
        env!("BENCH_GCC"),
        iconv::version(),
        effort.rounds
    );
}

fn processor() -> String {
    let information = fs::read_to_string("/proc/cpuinfo").unwrap_or_default();
    let mut models = information.lines().filter_map(|line| {
        let (key, value) = line.split_once(':')?;
        (key.trim() == "model name").then(|| value.trim().to_string())
    });
    let model = models.next().unwrap_or("an unknown processor".to_string());
    let system = Command::new("uname").arg("-sr").output();
    let system = system.map_or(String::new(), |output| {
        format!(", {}", String::from_utf8_lossy(&output.stdout).trim())
    });
    format!("{model} ({} cores{system})", models.count() + 1)
}

/// The day, as 2026-11-16.
fn date() -> String {
    let since = SystemTime::now().duration_since(UNIX_EPOCH);
    let (year, month, day) = civil(since.map_or(0, |since| since.as_secs() / 86_400));
    format!("{year}-{month:02}-{day:02}")
}

/// Year, month and day of a count of days since 1970-01-01.
fn civil(mut days: u64) -> (u64, u64, u64) {
    let leap = |year: u64| {
        year.is_multiple_of(4) && (!year.is_multiple_of(100) || year.is_multiple_of(400))
    };
    let mut year = 1970;
    loop {
        let length = if leap(year) { 366 } else { 365 };
        if days < length {
            break;
        }
        days -= length;
        year += 1;
    }
    let february = if leap(year) { 29 } else { 28 };
    let mut month = 1;
    for length in [31, february, 31, 30, 31, 30, 31, 31, 30, 31, 30, 31] {
        if days < length {
            break;
        }
        days -= length;
        month += 1;
    }
    (year, month, days + 1)
}

fn targets(page: &mut String, all: &[Figures]) {
    page.push_str("## What is asked, and the worst figure\n\n");
    page.push_str("| what | at least | worst | of | reached |\n|---|--:|--:|---|---|\n");
    for target in TARGETS {
        let (ratio, place, reached) = match target.worst(all) {
            None => ("".to_string(), "not installed".to_string(), ""),
            Some(worst) => {
                let case = &worst.figures.case;
                let place = format!("{}, {}", words(&case.call), case.class.name());
                let reached = if target.reached(&worst) {
                    "yes"
                } else {
                    "**no**"
                };
                (number(worst.ratio), place, reached)
            }
        };
        let _ = writeln!(
            page,
            "| {} | {} | {ratio} | {place} | {reached} |",
            target.what, target.least
        );
    }
    page.push('\n');
}

/// The tables of a size: each pair against each of those who can do it.
fn strict(page: &mut String, results: &Results, size: Size) {
    let _ = writeln!(page, "## Strict conversion, {}: ratios\n", size.name());
    for first in [ICONV, SECOND] {
        let others: &[&str] = match first {
            ICONV => &[ICONV, STANDARD, ICU],
            _ => &[SECOND, PLAIN],
        };
        let mut rows = Vec::new();
        for other in others {
            for call in results.conversions(size, first) {
                let ratios = results.row(call, size, false, |figures| figures.ratio(other));
                rows.push(cells(&[other, &words(call)], ratios));
            }
        }
        table(page, &["against", "pair"], &rows);
    }
}

fn lengths(page: &mut String, results: &Results) {
    for size in Size::ALL {
        let _ = writeln!(page, "## Lengths, {}: ratios\n", size.name());
        let mut rows = Vec::new();
        for other in [CONVERTER, STANDARD, ICU] {
            for call in results.calls(size, |figures| {
                figures.ratio(CONVERTER).is_some() && figures.ratio(other).is_some()
            }) {
                let ratios = results.row(call, size, false, |figures| figures.ratio(other));
                let other = if other == CONVERTER {
                    "its converter"
                } else {
                    other
                };
                rows.push(cells(&[other, &words(call)], ratios));
            }
        }
        table(page, &["against", "pair"], &rows);
    }
}

fn lossy(page: &mut String, results: &Results) {
    for size in Size::ALL {
        let _ = writeln!(page, "## Lossy decoding, {}: ratios\n", size.name());
        let mut rows = Vec::new();
        for other in [STANDARD, SECOND] {
            for call in results.calls(size, |figures| {
                figures.case.call.ends_with("_decode_lossy") && figures.ratio(other).is_some()
            }) {
                for (struck, sort) in [(false, "good"), (true, "struck")] {
                    let ratios = results.row(call, size, struck, |figures| figures.ratio(other));
                    rows.push(cells(&[other, &words(call), sort], ratios));
                }
            }
        }
        table(page, &["against", "form", "text"], &rows);
    }
}

fn finder(page: &mut String, results: &Results) {
    page.push_str("## Item covering an offset: nanoseconds of a call\n\n");
    let far = |figures: &Figures| Some(figures.ratio(FAR)? * figures.ours());
    let mut rows = Vec::new();
    for call in results.calls(Size::Long, |figures| figures.ratio(FAR).is_some()) {
        for (struck, sort) in [(false, "good"), (true, "struck")] {
            let near = results.row(call, Size::Long, struck, |figures| Some(figures.ours()));
            rows.push(cells(&[&words(call), sort, "10"], near));
            let far = results.row(call, Size::Long, struck, far);
            rows.push(cells(&[&words(call), sort, "65,000"], far));
        }
    }
    table(page, &["form", "text", "offset"], &rows);
}

/// What the ratios are of.
fn speeds(page: &mut String, results: &Results) {
    let memcpy = |figures: &Figures| Some(figures.ratio(MEMCPY)? * figures.ours());
    // One pair for each form that a text can come in.
    let copies = [
        "fss_utf_to_utf16",
        "utf16_to_ucs4",
        "ucs4_to_utf16",
        "utf_ebcdic_to_utf16",
    ];
    let mut rates = Vec::new();
    let mut times = Vec::new();
    for call in results.conversions(Size::Long, MEMCPY) {
        let rate = |figures: &Figures| Some(figures.gigabytes_per_second());
        let row = results.row(call, Size::Long, false, rate);
        rates.push(cells(&[&words(call)], row));
        let row = results.row(call, Size::Short, false, |figures| Some(figures.ours()));
        times.push(cells(&[&words(call)], row));
    }
    for call in copies {
        let words = words(call);
        let name = format!("memcpy of {}", words.split(' ').next().unwrap_or_default());
        let rate = |figures: &Figures| Some(figures.source_bytes as f64 / memcpy(figures)?);
        rates.push(cells(&[&name], results.row(call, Size::Long, false, rate)));
        times.push(cells(
            &[&name],
            results.row(call, Size::Short, false, memcpy),
        ));
    }
    page.push_str("## Strict conversion, 64 KiB: gigabytes of the source in a second\n\n");
    table(page, &["pair"], &rates);
    page.push_str("## Strict conversion, 40 bytes: nanoseconds of a call\n\n");
    table(page, &["pair"], &times);
}

fn library(page: &mut String, sizes: &Sizes, depths: &[(&'static str, usize)]) {
    const CONVERSION: &str = "a conversion, which ends in a form's name";
    let kind = |name: &'static str| match name.ends_with("_length") {
        false if name.contains("_to_") => CONVERSION,
        _ => name,
    };
    let mut rows = String::new();
    let mut row = |what: &str, end: &str| {
        let deepest = depths.iter().find(|(name, _)| kind(name).ends_with(end));
        if let Some((name, bytes)) = deepest {
            let _ = writeln!(
                rows,
                "| deepest stack of {what} | {} bytes (`{name}`) |",
                thousands(*bytes)
            );
        }
    };
    row("a call", "");
    row("a strict conversion", CONVERSION);
    row("a length", "_length");
    row("a lossy decoding", "_decode_lossy");
    row("an item at an offset", "_item_at");
    row("an item covering an offset", "_item_covering");
    let _ = write!(
        page,
        "## Sizes\n\n\
         | what | how much |\n|---|---|\n\
         {}{rows}\n",
        size_rows(sizes),
    );
}

fn thousands(bytes: usize) -> String {
    match bytes {
        1000.. => format!("{},{:03}", bytes / 1000, bytes % 1000),
        _ => bytes.to_string(),
    }
}

/// The rows of the archive's sizes, which `--check` holds the page to.
pub fn size_rows(sizes: &Sizes) -> String {
    let mut rows = format!(
        "| code | {} bytes |\n| constants | {} bytes |\n",
        thousands(sizes.code),
        thousands(sizes.constants),
    );
    for (what, bytes) in &sizes.by_use {
        let _ = writeln!(rows, "| of these {what} | {} bytes |", thousands(*bytes));
    }
    rows
}

#[cfg(test)]
mod tests {
    use super::*;

    #[test]
    fn only_the_marked_part_is_replaced() {
        let page = format!("before\n{BEGIN}\nold\n{END}\nafter\n");
        let once = replaced(&page, "new\n").unwrap();
        assert_eq!(once, format!("before\n{BEGIN}\n\nnew\n\n{END}\nafter\n"));
        assert_eq!(replaced(&once, "new\n").unwrap(), once);
        assert_eq!(replaced("no markers", "new"), None);
    }

    #[test]
    fn days_have_dates() {
        assert_eq!(civil(0), (1970, 1, 1));
        assert_eq!(civil(11_016), (2000, 2, 29));
        assert_eq!(civil(20_773), (2026, 11, 16));
        assert_eq!(civil(19_722), (2023, 12, 31));
    }

    #[test]
    fn calls_have_words() {
        assert_eq!(words("fss_utf_to_utf16_length"), "FSS-UTF to UTF-16");
        assert_eq!(words("utf_ebcdic_decode_lossy"), "UTF-EBCDIC");
        assert_eq!(words("ucs4_item_covering"), "UCS-4");
    }

    #[test]
    fn numbers_have_as_many_decimals_as_tell() {
        assert_eq!(
            [0.044, 1.5, 12.34, 987.6].map(number),
            ["0.04", "1.50", "12.3", "988"]
        );
    }
}
