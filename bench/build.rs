//! Links `libjiskromet.a` as the second program does, and ICU where pkg-config
//! knows it.

use std::env;
use std::path::{Path, PathBuf};
use std::process::Command;

fn main() {
    let package = PathBuf::from(variable("CARGO_MANIFEST_DIR"));
    // A relative folder counts from the package; an absolute one replaces it.
    let folder = match env::var_os("JISKROMET_LIB_DIR") {
        Some(named) => package.join(named),
        None => package.join("../target/staticlib"),
    };
    let archive = folder.join("libjiskromet.a");

    println!("cargo::rerun-if-env-changed=JISKROMET_LIB_DIR");
    println!("cargo::rerun-if-changed=build.rs");
    println!("cargo::rerun-if-changed={}", archive.display());
    println!("cargo::rustc-link-search=native={}", folder.display());
    println!("cargo::rustc-link-lib=static=jiskromet");
    println!("cargo::rustc-env=BENCH_ARCHIVE={}", archive.display());
    for (name, program) in [
        ("BENCH_RUSTC", variable("RUSTC")),
        ("BENCH_GCC", "gcc".to_string()),
    ] {
        let version = first_line(Command::new(program).arg("--version"));
        println!("cargo::rustc-env={name}={}", version.unwrap_or_default());
    }

    println!("cargo::rustc-check-cfg=cfg(icu)");
    println!("cargo::rerun-if-env-changed=PKG_CONFIG_PATH");
    println!("cargo::rerun-if-env-changed=PKG_CONFIG_LIBDIR");
    println!("cargo::rerun-if-changed=src/icu.c");
    link_icu(&package);
}

fn variable(name: &str) -> String {
    env::var(name).unwrap_or_else(|_| panic!("cargo sets {name}"))
}

/// Without ICU the benchmark is built without it.
fn link_icu(package: &Path) {
    let Some(flags) = first_line(Command::new("pkg-config").args(["--cflags", "icu-uc"])) else {
        return;
    };
    let Some(libraries) = first_line(Command::new("pkg-config").args(["--libs", "icu-uc"])) else {
        return;
    };
    let out = PathBuf::from(variable("OUT_DIR"));
    let object = out.join("icu.o");
    let compiled = Command::new("gcc")
        .args(["-std=c11", "-Wall", "-Wextra", "-O2", "-c"])
        .args(flags.split_whitespace())
        .arg(package.join("src/icu.c"))
        .arg("-o")
        .arg(&object)
        .status()
        .is_ok_and(|status| status.success());
    assert!(
        compiled,
        "pkg-config knows icu-uc, but src/icu.c does not compile with gcc"
    );
    println!("cargo::rustc-cfg=icu");
    println!("cargo::rustc-link-arg={}", object.display());
    for flag in libraries.split_whitespace() {
        println!("cargo::rustc-link-arg={flag}");
    }
}

/// The first line that a command prints, if it succeeds.
fn first_line(command: &mut Command) -> Option<String> {
    let output = command
        .output()
        .ok()
        .filter(|output| output.status.success())?;
    let text = String::from_utf8(output.stdout).ok()?;
    Some(text.lines().next().unwrap_or_default().to_string())
}
