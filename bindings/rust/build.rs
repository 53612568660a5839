//! Finds the archive of the proved library: in the folder that TRONGLEPHU_LIB names, or where this repository makes it.

use std::env;
use std::path::PathBuf;
use std::process;

const ARCHIVE: &str = "libtronglephu.a";
const VARIABLE: &str = "TRONGLEPHU_LIB";

fn main() {
    println!("cargo:rerun-if-changed=build.rs");
    println!("cargo:rerun-if-env-changed={VARIABLE}");
    // On another processor the crate itself says that it cannot be compiled.
    if env::var("CARGO_CFG_TARGET_ARCH").as_deref() != Ok("x86_64") {
        return;
    }
    let folder = folder();
    let archive = folder.join(ARCHIVE);
    println!("cargo:rerun-if-changed={}", archive.display());
    if !archive.is_file() {
        eprintln!("{} is not there.", archive.display());
        eprintln!("Make it with `tools/archive` at the root of the repository,");
        eprintln!("or let {VARIABLE} name the folder that has {ARCHIVE}.");
        process::exit(1);
    }
    println!("cargo:rustc-link-search=native={}", folder.display());
    println!("cargo:rustc-link-lib=static=tronglephu");
}

fn folder() -> PathBuf {
    if let Some(folder) = env::var_os(VARIABLE) {
        return PathBuf::from(folder);
    }
    let here = env::var_os("CARGO_MANIFEST_DIR").unwrap_or_default();
    PathBuf::from(here).join("../../target/staticlib")
}
