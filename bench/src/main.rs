//! Times `libjiskromet.a` against what people would use instead, in one
//! process, on the same bytes, interleaved. Every result is compared before it
//! is timed.
//!
//! Usage: `bench [--quick] [--check] [--no-write] [--only WORDS]`

mod buffer;
mod groups;
mod iconv;
mod icu;
mod page;
mod plain;
mod plot;
mod sizes;
mod stack;
mod standard;
mod targets;
mod text;
mod timing;

/// The second program's rules, declarations and random numbers.
#[path = "../../second/src"]
#[allow(dead_code, unused_imports)]
mod second {
    pub mod library;
    pub mod random;
    pub mod reference;
}
use second::{library, random, reference};

use std::env;
use std::fs;
use std::io::{self, ErrorKind, Write};
use std::path::{Path, PathBuf};
use std::process::ExitCode;

use groups::{Figures, Run, Stop};
use targets::TARGETS;
use timing::Effort;

const USAGE: &str = "usage: bench [--quick] [--check] [--no-write] [--only WORDS]

  --quick       fewer rounds; prints only
  --check       compares all results, and the sizes with those of docs/SPEED.md, and times nothing
  --no-write    prints, and leaves docs/SPEED.md and docs/speed.svg as they are
  --only WORDS  only cases whose name has these words, as 'fss_utf_to_utf16' or
                'utf16_to_ucs4 CJK 40 bytes'; prints only";

struct Arguments {
    quick: bool,
    check: bool,
    write: bool,
    only: String,
}

impl Arguments {
    fn parse(mut arguments: impl Iterator<Item = String>) -> Result<Self, String> {
        let mut parsed = Arguments {
            quick: false,
            check: false,
            write: true,
            only: String::new(),
        };
        while let Some(argument) = arguments.next() {
            match argument.as_str() {
                "--quick" => parsed.quick = true,
                "--check" => parsed.check = true,
                "--no-write" => parsed.write = false,
                "--only" => {
                    parsed.only = arguments
                        .next()
                        .ok_or("--only names no words")?
                        .to_lowercase();
                }
                _ => return Err(format!("unknown argument {argument}")),
            }
        }
        // The page has the figures of a whole run and no other.
        parsed.write &= !parsed.quick && !parsed.check && parsed.only.is_empty();
        Ok(parsed)
    }
}

fn main() -> ExitCode {
    let arguments = match Arguments::parse(env::args().skip(1)) {
        Ok(arguments) => arguments,
        Err(why) => {
            eprintln!("{why}\n{USAGE}");
            return ExitCode::from(2);
        }
    };
    match run(&arguments, &mut io::stdout().lock()) {
        Ok(()) => ExitCode::SUCCESS,
        // Who closed the pipe has read enough.
        Err(Stop::Output(why)) if why.kind() == ErrorKind::BrokenPipe => ExitCode::SUCCESS,
        Err(Stop::Output(why)) => {
            eprintln!("{why}");
            ExitCode::FAILURE
        }
        Err(Stop::Failed(why)) => {
            eprintln!("{why}");
            ExitCode::FAILURE
        }
    }
}

fn run(arguments: &Arguments, out: &mut dyn Write) -> Result<(), Stop> {
    let effort = match (arguments.check, arguments.quick) {
        (true, _) => None,
        (_, true) => Some(Effort::QUICK),
        _ => Some(Effort::FULL),
    };
    if effort.is_some() {
        writeln!(
            out,
            "ns and GB/s are ours; under the others' names their time over ours, so that above 1 ours is faster"
        )?;
    }
    let mut run = Run {
        out,
        effort,
        only: arguments.only.clone(),
        figures: Vec::new(),
        compared: 0,
    };
    run.all()?;
    let Run {
        figures, compared, ..
    } = run;
    if compared == 0 {
        return Err(Stop::Failed(format!(
            "no case has the words '{}'",
            arguments.only
        )));
    }
    if effort.is_some() {
        print_targets(out, &figures)?;
    }
    writeln!(
        out,
        "\nthe results of all contestants agree in {compared} cases"
    )?;
    if arguments.check && arguments.only.is_empty() {
        check_sizes()?;
    }
    if let Some(effort) = effort.filter(|_| arguments.write) {
        write_page(out, &figures, effort)?;
    }
    Ok(())
}

fn docs() -> PathBuf {
    Path::new(env!("CARGO_MANIFEST_DIR")).join("../docs")
}

/// The page has the sizes of the archive that was linked.
fn check_sizes() -> Result<(), Stop> {
    let rows = page::size_rows(&sizes::of_archive().map_err(Stop::Failed)?);
    if fs::read_to_string(docs().join("SPEED.md"))?.contains(&rows) {
        Ok(())
    } else {
        Err(Stop::Failed(format!(
            "docs/SPEED.md has other sizes than the archive:\n{rows}"
        )))
    }
}

/// The targets that this run can say something about.
fn print_targets(out: &mut dyn Write, figures: &[Figures]) -> io::Result<()> {
    writeln!(out, "\nat least     worst")?;
    for target in TARGETS {
        if let Some(worst) = target.worst(figures) {
            let reached = if target.reached(&worst) {
                ""
            } else {
                "  NOT REACHED"
            };
            writeln!(
                out,
                "{:8}{:10.2}  {}: {}{reached}",
                target.least,
                worst.ratio,
                target.what,
                worst.figures.case.label()
            )?;
        }
    }
    Ok(())
}

fn write_page(out: &mut dyn Write, figures: &[Figures], effort: Effort) -> Result<(), Stop> {
    let docs = docs();
    let sizes = sizes::of_archive().map_err(Stop::Failed)?;
    let page = page::figures(figures, effort, &sizes, &stack::depths());
    page::update(&docs.join("SPEED.md"), &page).map_err(Stop::Failed)?;
    fs::write(docs.join("speed.svg"), plot::svg(figures))?;
    writeln!(out, "docs/SPEED.md and docs/speed.svg are written")?;
    Ok(())
}

#[cfg(test)]
mod tests {
    use super::*;

    struct ClosedPipe;

    impl Write for ClosedPipe {
        fn write(&mut self, _: &[u8]) -> io::Result<usize> {
            Err(ErrorKind::BrokenPipe.into())
        }

        fn flush(&mut self) -> io::Result<()> {
            Err(ErrorKind::BrokenPipe.into())
        }
    }

    fn parse(words: &str) -> Result<Arguments, String> {
        Arguments::parse(words.split_whitespace().map(str::to_string))
    }

    #[test]
    fn a_closed_pipe_ends_the_run() {
        for words in [
            "--check --only item_covering",
            "--quick --only ucs4_item_covering",
        ] {
            let ended = run(&parse(words).unwrap(), &mut ClosedPipe);
            assert!(matches!(ended, Err(Stop::Output(_))), "{words}");
        }
    }

    #[test]
    fn only_a_whole_run_writes_the_page() {
        assert!(parse("").unwrap().write);
        for words in ["--quick", "--check", "--no-write", "--only utf16"] {
            assert!(!parse(words).unwrap().write, "{words}");
        }
        assert!(parse("--fast").is_err() && parse("--only").is_err());
    }

    #[test]
    fn words_that_no_case_has_are_told() {
        let ended = run(&parse("--check --only utf7").unwrap(), &mut io::sink());
        assert!(matches!(ended, Err(Stop::Failed(_))));
    }
}
