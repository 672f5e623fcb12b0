//! An outside witness of `libjiskromet.a`: it runs the library on many texts
//! and holds every answer to a second implementation of document 01, and the
//! mended readings to the words of demand 3 besides.
//!
//! Usage: `second [--root DIR] [--listing PATH]`
//!
//! `--root` is the repository's root, by default the folder above this
//! package. `--listing` is the listing program's executable; without it the
//! group that runs it is left out.

mod checks;
mod declarations;
mod library;
mod random;
mod reference;
mod report;

use std::env;
use std::path::PathBuf;
use std::process::ExitCode;

use checks::{
    acceptance, boundaries, conversion, covering, limits, listing, lossy, published, random_texts,
    turned_away, units, walking,
};
use report::Report;

struct Arguments {
    root: PathBuf,
    listing: Option<PathBuf>,
}

impl Arguments {
    fn parse(mut arguments: impl Iterator<Item = String>) -> Result<Self, String> {
        let mut parsed = Arguments {
            root: PathBuf::from(env!("CARGO_MANIFEST_DIR")).join(".."),
            listing: None,
        };
        while let Some(argument) = arguments.next() {
            let mut path = || {
                arguments
                    .next()
                    .map(PathBuf::from)
                    .ok_or(format!("{argument} names no path"))
            };
            match argument.as_str() {
                "--root" => parsed.root = path()?,
                "--listing" => parsed.listing = Some(path()?),
                _ => return Err(format!("unknown argument {argument}")),
            }
        }
        Ok(parsed)
    }
}

fn main() -> ExitCode {
    let arguments = match Arguments::parse(env::args().skip(1)) {
        Ok(arguments) => arguments,
        Err(why) => {
            eprintln!("{why}\nusage: second [--root DIR] [--listing PATH]");
            return ExitCode::from(2);
        }
    };

    println!("random seed {:016X}", random::SEED);
    let mut report = Report::default();
    report.run("acceptance points", acceptance::check);
    report.run("published examples", published::check);
    report.run("units and pairs", units::check);
    report.run("boundary values", boundaries::check);
    report.run("random texts", random_texts::check);
    report.run("limits", limits::check);
    report.run("walking", walking::check);
    report.run("conversion points", conversion::points::check);
    report.run("conversion of values", conversion::values::check);
    report.run("conversion faults", conversion::faults::check);
    report.run("conversion limits", conversion::limits::check);
    report.run("conversion room", conversion::room::check);
    report.run("conversion of random texts", conversion::texts::check);
    report.run("mended readings", lossy::texts::check);
    report.run("mended reading's limits", lossy::limits::check);
    report.run("demand 3", lossy::parts::check);
    report.run("the tender's accident", lossy::accident::check);
    report.run("covering points", covering::points::check);
    report.run("covering items", covering::texts::check);
    report.run("covering locality", covering::locality::check);
    report.run("covering limits", covering::limits::check);
    report.run("FFFE and FFFF", turned_away::check);
    if let Some(program) = &arguments.listing {
        report.run("listing program", |group| listing::check(group, program));
    }
    report.run("declarations", |group| {
        declarations::check(group, &arguments.root)
    });
    if report.finish() {
        ExitCode::SUCCESS
    } else {
        ExitCode::FAILURE
    }
}
