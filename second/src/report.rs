//! Counting checks and telling of those that fail.

use std::fmt::Display;

use crate::library::{JkConversion, JkDecoding, JkItem, Linked, CHARACTER, END, MARK, REFUSAL};
use crate::reference::{self, Form};

/// How many failures of a group are printed in full.
const SHOWN: u64 = 5;

/// A group of checks.
#[derive(Default)]
pub struct Group {
    checks: u64,
    failures: u64,
    shown: Vec<String>,
    notes: Vec<String>,
}

impl Group {
    /// Counts one check; `describe` is called only for a failure to be shown.
    pub fn check(&mut self, holds: bool, describe: impl FnOnce() -> String) {
        self.checks += 1;
        if !holds {
            self.failures += 1;
            if self.failures <= SHOWN {
                self.shown.push(describe());
            }
        }
    }

    /// The failures kept to be printed.
    #[cfg(test)]
    pub fn shown(&self) -> &[String] {
        &self.shown
    }

    /// A line to print with the group's result.
    pub fn note(&mut self, line: String) {
        self.notes.push(line);
    }

    /// Holds the library's reading of a text at one offset to an answer.
    pub fn answer<F: Linked>(
        &mut self,
        text: &[F::Unit],
        offset: usize,
        expected: JkItem,
        source: impl Display,
    ) {
        let came = F::item_at(text, offset);
        self.check(came == expected, || {
            format!(
                "{source}: {} [{}] at {offset}: expected {}, came {}",
                F::NAME,
                hex::<F>(text),
                told(expected),
                told(came),
            )
        });
    }

    /// Holds the library's reading of a text at one offset to the reference's.
    pub fn agree<F: Linked>(&mut self, text: &[F::Unit], offset: usize, source: impl Display) {
        let expected = JkItem::of(reference::item_at::<F>(text, offset), offset);
        self.answer::<F>(text, offset, expected, source);
    }

    /// `agree` at every offset of the text, its end, and two beyond.
    pub fn agree_everywhere<F: Linked>(&mut self, text: &[F::Unit], source: impl Display) {
        for offset in 0..=text.len() + 2 {
            self.agree::<F>(text, offset, &source);
        }
    }
}

/// The groups run so far.
#[derive(Default)]
pub struct Report {
    passed: u64,
    failed: u64,
}

impl Report {
    /// Runs a group and prints its line, then its first failures.
    pub fn run(&mut self, name: &str, checks: impl FnOnce(&mut Group)) {
        let mut group = Group::default();
        checks(&mut group);
        // A group that checked nothing has shown nothing.
        if group.checks == 0 {
            group.check(false, || "no check was run".to_string());
        }
        println!("{name}: {} checks, {} failed", group.checks, group.failures);
        for line in &group.notes {
            println!("  note: {line}");
        }
        for failure in &group.shown {
            println!("  failed: {failure}");
        }
        if group.failures > SHOWN {
            println!("  and {} more", group.failures - SHOWN);
        }
        if group.failures == 0 {
            self.passed += 1;
        } else {
            self.failed += 1;
        }
    }

    /// Prints the total as the last line; true where no group failed.
    pub fn finish(self) -> bool {
        println!("counted in groups of checks:");
        println!("{} passed, {} failed", self.passed, self.failed);
        self.failed == 0
    }
}

/// Units in hex; the middle of a long text is left out.
pub fn hex<F: Form>(text: &[F::Unit]) -> String {
    const ENDS: usize = 40;
    let digits = 2 * size_of::<F::Unit>();
    let join = |units: &[F::Unit]| {
        let units: Vec<String> = units
            .iter()
            .map(|&unit| format!("{:0digits$X}", Into::<u32>::into(unit)))
            .collect();
        units.join(" ")
    };
    if text.len() <= 3 * ENDS {
        join(text)
    } else {
        format!(
            "{} .. {} units in all .. {}",
            join(&text[..ENDS]),
            text.len(),
            join(&text[text.len() - ENDS..]),
        )
    }
}

/// An answer in words, with every field.
pub fn told(item: JkItem) -> String {
    let JkItem {
        kind,
        fault,
        value,
        offset,
        length,
    } = item;
    let kind = match kind {
        END => "End".to_string(),
        CHARACTER => "character".to_string(),
        MARK => "mark".to_string(),
        REFUSAL => "refusal".to_string(),
        other => format!("kind {other}"),
    };
    format!("{kind} (fault {fault}, value {value:X}, offset {offset}, length {length})")
}

/// A conversion's answer in words, with every field.
pub fn told_conversion(conversion: JkConversion) -> String {
    let JkConversion {
        fault,
        offset,
        units,
    } = conversion;
    format!("fault {fault}, offset {offset}, {units} units")
}

/// A mended reading's answer in words, with every field.
pub fn told_decoding(decoding: JkDecoding) -> String {
    let JkDecoding {
        fault,
        offset,
        items,
        marks,
    } = decoding;
    format!("fault {fault}, offset {offset}, {items} items, {marks} marks")
}
