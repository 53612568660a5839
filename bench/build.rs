//! Finds the archive of the proved library, and makes `equal.rs`: the library's own source without its contracts and models, which
//! is Rust, compiled by the same compiler as the rest of the benchmark, with Rust's checks.

use std::path::{Path, PathBuf};
use std::{env, fs, process};

const CRATES: [&str; 26] = [
    "refusals",
    "numbers",
    "weights",
    "placing",
    "words",
    "laws",
    "matrices",
    "modes",
    "guards",
    "arcs",
    "rows",
    "columns",
    "holding",
    "tables",
    "sums",
    "table_guards",
    "routes",
    "steps",
    "forwarding",
    "hops",
    "handover",
    "file_bytes",
    "fields",
    "records",
    "contents",
    "files",
];

fn main() {
    let here = PathBuf::from(env::var_os("CARGO_MANIFEST_DIR").unwrap_or_default());
    let folder = here.join("../target/staticlib");
    let archive = folder.join("libtronglephu.a");
    println!("cargo:rerun-if-changed={}", archive.display());
    println!(
        "cargo:rerun-if-changed={}",
        here.join("../crates").display()
    );
    if !archive.is_file() {
        eprintln!(
            "{} is not there: make it with tools/archive.",
            archive.display()
        );
        process::exit(1);
    }
    println!("cargo:rustc-link-search=native={}", folder.display());
    println!("cargo:rustc-link-lib=static=tronglephu");
    let text: String = CRATES
        .iter()
        .map(|name| module(&here.join("../crates"), name))
        .collect();
    let out = PathBuf::from(env::var_os("OUT_DIR").unwrap_or_default());
    fs::write(out.join("equal.rs"), text).expect("the equal source is written");
}

/// A crate as a module, its files as modules in it.
fn module(crates: &Path, name: &str) -> String {
    let source = crates.join(name).join("src");
    let lines = plain_lines(&source.join("lib.rt"));
    let mut text = format!("pub mod {name} {{\n");
    for line in lines {
        let file = line.strip_suffix(';').and_then(|line| {
            let public = line.strip_prefix("pub mod ");
            public.or_else(|| line.strip_prefix("mod "))
        });
        match file {
            Some(file) => {
                let inner = plain_lines(&source.join(format!("{file}.rt")));
                let start = line.trim_end_matches(';');
                text += &format!("{start} {{\n{}\n}}\n", inner.join("\n"));
            }
            None => text += &(line + "\n"),
        }
    }
    text + "}\n"
}

/// The lines of a file without its contracts, models and ghost lines; what is left is Rust and copied as it is.
fn plain_lines(file: &Path) -> Vec<String> {
    let text =
        fs::read_to_string(file).unwrap_or_else(|fault| panic!("{}: {fault}", file.display()));
    let mut lines = Vec::new();
    let mut in_model = false;
    for line in text.lines() {
        in_model |= line.starts_with("impl") && line.contains(" Model for ");
        if !in_model && !is_for_the_prover(line) {
            let rooted = CRATES
                .iter()
                .fold(line.to_string(), |line, name| rooted(&line, name));
            lines.push(rooted);
        }
        in_model &= line != "}";
    }
    lines
}

/// A contract, a ghost line, a mark of the prover, or the import of a model; each stands in a line of its own.
fn is_for_the_prover(line: &str) -> bool {
    let starts = [
        "requires ",
        "ensures ",
        "ghost ",
        "#![tactic(",
        "#[tactic(",
        "#[derive(Drop)]",
        "use std::marker::Model;",
    ];
    let inner = line.trim_start();
    starts.iter().any(|start| inner.starts_with(start))
}

/// Paths that begin with a crate's name begin with its module instead.
fn rooted(line: &str, name: &str) -> String {
    let path = format!("{name}::");
    let mut text = String::new();
    let mut rest = line;
    while let Some(at) = rest.find(&path) {
        let before = rest[..at].chars().last().unwrap_or(' ');
        text += &rest[..at];
        if !before.is_alphanumeric() && before != '_' && before != ':' {
            text += "crate::equal::";
        }
        text += &path;
        rest = &rest[at + path.len()..];
    }
    text + rest
}
