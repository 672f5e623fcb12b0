//! Links `libjiskromet.a` from the folder that `JISKROMET_LIB_DIR` names, or
//! from where `make library` puts it.

use std::env;
use std::path::PathBuf;

fn main() {
    let package =
        PathBuf::from(env::var_os("CARGO_MANIFEST_DIR").expect("cargo sets CARGO_MANIFEST_DIR"));
    // A relative folder counts from the package; an absolute one replaces it.
    let folder = match env::var_os("JISKROMET_LIB_DIR") {
        Some(named) => package.join(named),
        None => package.join("../target/staticlib"),
    };
    let archive = folder.join("libjiskromet.a");

    println!("cargo:rerun-if-env-changed=JISKROMET_LIB_DIR");
    println!("cargo:rerun-if-changed=build.rs");
    println!("cargo:rerun-if-changed={}", archive.display());
    println!("cargo:rustc-link-search=native={}", folder.display());
    println!("cargo:rustc-link-lib=static=jiskromet");
}
