//! Tells the linker where libpelzurivan.a lies: in ../crates/pelzurivan/out, where `rt lib` in
//! crates/pelzurivan writes it for x86-64, or in the folder that PELZURIVAN_LIB names, for another
//! build of the same calls.

use std::env;
use std::path::{Path, PathBuf};
use std::process::exit;

const ARCHIVE: &str = "libpelzurivan.a";

fn main() {
    println!("cargo:rerun-if-env-changed=PELZURIVAN_LIB");
    let folder = env::var_os("PELZURIVAN_LIB").map(PathBuf::from).unwrap_or_else(proved);
    let archive = folder.join(ARCHIVE);
    println!("cargo:rerun-if-changed={}", archive.display());
    if !archive.exists() {
        fail(&format!("{} isn't there: rt lib in crates/pelzurivan makes it", archive.display()));
    }
    println!("cargo:rustc-link-search=native={}", folder.display());
    println!("cargo:rustc-link-lib=static=pelzurivan");
}

/// The folder of the archive that rt proved and built.
fn proved() -> PathBuf {
    if env::var("CARGO_CFG_TARGET_ARCH").as_deref() != Ok("x86_64") {
        fail("libpelzurivan.a is for x86-64 and can't be linked into a program for this processor");
    }
    let here = env::var_os("CARGO_MANIFEST_DIR").unwrap_or_default();
    Path::new(&here).join("../crates/pelzurivan/out")
}

fn fail(why: &str) -> ! {
    eprintln!("{why}");
    exit(1)
}
