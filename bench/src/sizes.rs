//! How large the library is.

use std::cmp::Reverse;
use std::collections::BTreeMap;
use std::process::Command;

/// Bytes of the archive's code, and of its constants, all and by use.
pub struct Sizes {
    pub code: usize,
    pub constants: usize,
    pub by_use: Vec<(&'static str, usize)>,
}

/// What `size -A` and `objdump -dr` tell of the archive that was linked.
pub fn of_archive() -> Result<Sizes, String> {
    let mut sizes = sum(&told("size", &["-A"])?);
    for (what, bytes) in vectors(&told("objdump", &["-dr"])?) {
        add(&mut sizes.by_use, what, bytes);
    }
    sizes.by_use.sort_by_key(|(_, bytes)| Reverse(*bytes));
    let known: usize = sizes.by_use.iter().map(|(_, bytes)| bytes).sum();
    if known != sizes.constants {
        return Err(format!(
            "the use of {known} bytes is known, but the archive has {} bytes of constants",
            sizes.constants
        ));
    }
    Ok(sizes)
}

fn told(program: &str, words: &[&str]) -> Result<String, String> {
    let output = Command::new(program)
        .args(words)
        .arg(env!("BENCH_ARCHIVE"))
        .output()
        .map_err(|why| format!("{program}: {why}"))?;
    if !output.status.success() {
        return Err(String::from_utf8_lossy(&output.stderr).into_owned());
    }
    Ok(String::from_utf8_lossy(&output.stdout).into_owned())
}

fn add(by_use: &mut Vec<(&'static str, usize)>, what: &'static str, bytes: usize) {
    match by_use.iter_mut().find(|(known, _)| *known == what) {
        Some((_, sum)) => *sum += bytes,
        None => by_use.push((what, bytes)),
    }
}

/// The sections' sizes. Constants of 16 bytes are in a section for all functions, whose use `vectors` tells.
fn sum(listing: &str) -> Sizes {
    let mut sizes = Sizes {
        code: 0,
        constants: 0,
        by_use: Vec::new(),
    };
    for line in listing.lines() {
        // A section's name may have spaces; its size and address do not.
        let mut words = line.split_whitespace().rev();
        let (Some(_), Some(Ok(size))) = (words.next(), words.next().map(str::parse::<usize>))
        else {
            continue;
        };
        if line.starts_with(".text") {
            sizes.code += size;
        } else if line.starts_with(".rodata") || line.starts_with(".data") {
            sizes.constants += size;
            if !line.starts_with(".rodata.cst16") {
                add(&mut sizes.by_use, "jump tables", size);
            }
        }
    }
    sizes
}

/// The constants of 16 bytes, by use. The compiler numbers them function by function, as `.LCPI3_0`, `.LCPI3_1`, and may leave one that no code
/// names: so a function has as many as the highest number that its code names, and one.
fn vectors(listing: &str) -> Vec<(&'static str, usize)> {
    let mut counts: BTreeMap<usize, (&'static str, usize)> = BTreeMap::new();
    let mut what = "";
    for line in listing.lines() {
        if let Some(name) = line.strip_prefix("Disassembly of section .text.") {
            what = use_of(name.trim_end_matches(':'));
        } else if let Some((_, label)) = line.split_once(".LCPI") {
            let mut numbers = label
                .split(|c: char| !c.is_ascii_digit())
                .map_while(|number| number.parse::<usize>().ok());
            if let (Some(function), Some(constant)) = (numbers.next(), numbers.next()) {
                let (_, count) = counts.entry(function).or_insert((what, 0));
                *count = (*count).max(constant + 1);
            }
        }
    }
    let mut by_use = Vec::new();
    for (what, count) in counts.into_values() {
        add(&mut by_use, what, 16 * count);
    }
    by_use
}

/// What a function's constants are for.
fn use_of(function: &str) -> &'static str {
    match function {
        "tables::exchange::ExchangeTable::new" => "the exchange table",
        "tables::exchange::InverseTable::new" => "its inverse",
        _ if function.starts_with("items::") => "lowest values, for the item reader",
        _ if function.starts_with("measure") => "vectors, for lengths",
        _ if function.starts_with("lossy") || function.ends_with("_decode_lossy") => {
            "vectors, for lossy decoding"
        }
        _ => "vectors, for writing",
    }
}

#[cfg(test)]
mod tests {
    use super::*;

    #[test]
    fn sections_are_summed() {
        let sizes = sum("x.o   (ex libx.a):\n\
             section            size   addr\n\
             .text                 0      0\n\
             .rodata.cst16      1088      0\n\
             .text.a::b          225      0\n\
             .text.<a as b>::c    75      0\n\
             .comment             79      0\n\
             .rodata.a            12      0\n\
             Total              1479\n");
        assert_eq!((sizes.code, sizes.constants), (300, 1100));
        assert_eq!(sizes.by_use, [("jump tables", 12)]);
    }

    #[test]
    fn a_constant_is_counted_once_and_one_without_a_name_too() {
        let by_use = vectors(
            "Disassembly of section .text.tables::exchange::InverseTable::new:\n\
             \t\t\ta: R_X86_64_PC32\t.LCPI0_0-0x4\n\
             \t\t\t16: R_X86_64_PC32\t.LCPI0_1-0x4\n\
             Disassembly of section .text.measure_runs::utf16::block:\n\
             \t\t\ta: R_X86_64_PC32\t.LCPI1_0-0x4\n\
             \t\t\t42: R_X86_64_PC32\t.LCPI1_0-0x5\n\
             \t\t\t50: R_X86_64_PC32\t.LCPI1_2-0x4\n",
        );
        assert_eq!(by_use, [("its inverse", 32), ("vectors, for lengths", 48)]);
    }
}
