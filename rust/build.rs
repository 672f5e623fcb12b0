//! Links `libjiskromet.a` from the folder that `JISKROMET_LIB_DIR` names, else
//! from where the repository builds it, else from where pkg-config knows it.

use std::env;
use std::path::{Path, PathBuf};
use std::process::{self, Command};

const ARCHIVE: &str = "libjiskromet.a";

fn main() {
    for variable in ["JISKROMET_LIB_DIR", "PKG_CONFIG_PATH", "PKG_CONFIG_LIBDIR"] {
        println!("cargo:rerun-if-env-changed={variable}");
    }
    println!("cargo:rerun-if-changed=build.rs");

    let package =
        PathBuf::from(env::var_os("CARGO_MANIFEST_DIR").expect("cargo sets CARGO_MANIFEST_DIR"));
    match find(&package) {
        Ok(folder) => {
            let archive = folder.join(ARCHIVE);
            println!("cargo:rerun-if-changed={}", archive.display());
            println!("cargo:rustc-link-search=native={}", folder.display());
            println!("cargo:rustc-link-lib=static=jiskromet");
        }
        Err(why) => {
            eprintln!("{why}");
            process::exit(1);
        }
    }
}

/// The folder that has the archive, or a sentence that says where it was sought.
fn find(package: &Path) -> Result<PathBuf, String> {
    // Who names a folder wants that archive and no other.
    if let Some(named) = env::var_os("JISKROMET_LIB_DIR") {
        // A relative folder counts from the package; an absolute one replaces it.
        let folder = package.join(named);
        if has_archive(&folder) {
            return Ok(folder);
        }
        return Err(format!(
            "JISKROMET_LIB_DIR names {}, but there is no {ARCHIVE} in it. (A relative folder counts \
             from {}, not from where cargo was called.)",
            folder.display(),
            package.display()
        ));
    }
    let built = package.join("../target/staticlib");
    if has_archive(&built) {
        return Ok(built);
    }
    let installed = pkg_config();
    if let Some(folder) = installed.as_deref().filter(|folder| has_archive(folder)) {
        return Ok(folder.to_path_buf());
    }
    let asked = match installed {
        Some(folder) => format!("in {}, which pkg-config names", folder.display()),
        None => "through pkg-config, which knows no jiskromet".to_string(),
    };
    Err(format!(
        "{ARCHIVE} was found neither in {} nor {asked}: build it with `make library` in the \
         repository, or let JISKROMET_LIB_DIR name the folder that has it.",
        built.display()
    ))
}

fn has_archive(folder: &Path) -> bool {
    folder.join(ARCHIVE).is_file()
}

/// The folder of an installed library, if pkg-config is there and knows one.
fn pkg_config() -> Option<PathBuf> {
    let output = Command::new("pkg-config")
        .args(["--variable=libdir", "jiskromet"])
        .output()
        .ok()
        .filter(|output| output.status.success())?;
    let folder = String::from_utf8(output.stdout).ok()?;
    let folder = folder.trim();
    (!folder.is_empty()).then(|| PathBuf::from(folder))
}
