//! Finds libstrkw.a: in the folder that STRKW_LIB_DIR names, where bindings/build leaves it,
//! in that of a release, or where pkg-config finds it.

use std::path::{Path, PathBuf};
use std::process::Command;
use std::{env, fs};

const ARCHIVE: &str = "libstrkw.a";

/// The folder that the variable names.
fn named() -> Option<PathBuf> {
    env::var_os("STRKW_LIB_DIR").map(PathBuf::from)
}

/// A folder beside the crates: `bindings/build` leaves the library in `out`, and a release has it in `lib`.
fn beside(name: &str) -> Option<PathBuf> {
    let folder = Path::new(&env::var_os("CARGO_MANIFEST_DIR")?).join("../..").join(name);
    fs::canonicalize(folder).ok()
}

/// The folder of the installed library.
fn installed() -> Option<PathBuf> {
    let run = Command::new("pkg-config").args(["--variable=libdir", "strkw"]).output().ok()?;
    let folder = String::from_utf8(run.stdout).ok()?;
    run.status.success().then(|| PathBuf::from(folder.trim()))
}

fn main() {
    println!("cargo:rerun-if-env-changed=STRKW_LIB_DIR");
    println!("cargo:rerun-if-env-changed=PKG_CONFIG_PATH");
    let found = named().or_else(|| {
        [beside("out"), beside("lib"), installed()].into_iter().flatten().find(|folder| folder.join(ARCHIVE).exists())
    });
    let Some(folder) = found else {
        panic!("{ARCHIVE} is not found: bindings/build makes it, or STRKW_LIB_DIR names its folder");
    };
    println!("cargo:rerun-if-changed={}", folder.join(ARCHIVE).display());
    println!("cargo:rustc-link-search=native={}", folder.display());
    println!("cargo:rustc-link-lib=static=strkw");
}
