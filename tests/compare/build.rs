//! Links the archive that the launcher builds, or the one in the
//! folder that RUNVESTOL_FOLDER names, and declares the calls that
//! `include/runvestol.h` has, in `calls.rs`.

use std::env;
use std::fs;
use std::path::{Path, PathBuf};

fn main() {
    let here = PathBuf::from(env::var("CARGO_MANIFEST_DIR").unwrap_or_default());
    let out = PathBuf::from(env::var("OUT_DIR").unwrap_or_default());
    let folder =
        env::var("RUNVESTOL_FOLDER").map_or(here.join("../../target/staticlib"), PathBuf::from);
    println!("cargo::rerun-if-env-changed=RUNVESTOL_FOLDER");
    println!(
        "cargo::rerun-if-changed={}",
        folder.join("librunvestol.a").display()
    );
    println!("cargo::rustc-link-search=native={}", folder.display());
    println!("cargo::rustc-link-lib=static=runvestol");
    declare_calls(
        &here.join("../../include/runvestol.h"),
        &out.join("calls.rs"),
    );
}

fn declare_calls(header: &Path, to: &Path) {
    println!("cargo::rerun-if-changed={}", header.display());
    let text = fs::read_to_string(header).expect("the header can be read");
    // What stands between a result type and the end of its prototype.
    let calls = text.split("\nuint64_t ").skip(1);
    let declared: Vec<String> = calls
        .map(|rest| declaration(rest.split(");").next().unwrap_or_default()))
        .collect();
    let block = format!("extern \"C\" {{\n{}}}\n", declared.concat());
    fs::write(to, block).expect("the declarations can be written");
}

/// `NAME(PARAMETERS` in C as a declaration in Rust.
fn declaration(call: &str) -> String {
    let (name, parameters) = call.split_once('(').expect("a call has parameters");
    let parameters: Vec<String> = parameters.split(',').map(parameter).collect();
    format!("    fn {name}({}) -> u64;\n", parameters.join(", "))
}

fn parameter(text: &str) -> String {
    let types = [
        ("const uint8_t *", "*const u8"),
        ("uint8_t *", "*mut u8"),
        ("size_t ", "usize"),
        ("uint64_t ", "u64"),
    ];
    let text = text.trim();
    let known = types
        .iter()
        .find_map(|(c, rust)| Some((text.strip_prefix(c)?, rust)));
    let (name, rust) = known.unwrap_or_else(|| panic!("a parameter of another type: {text}"));
    format!("{name}: {rust}")
}
