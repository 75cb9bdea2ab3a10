//! Links the archives from the folder that GUARD_ARCHIVE_DIR names (a relative path is taken from here):
//! libguard.a, libsheet.a for the feature `sheet`, libreadings.a for `readings`. Gives the numbers of include/guard_format.h to Rust.

use std::path::PathBuf;
use std::{env, fs, process};

/// The archives beside libguard.a, each with the feature that asks for it.
const OTHER_ARCHIVES: [(&str, &str); 2] = [
    ("sheet", "CARGO_FEATURE_SHEET"),
    ("readings", "CARGO_FEATURE_READINGS"),
];
const FORMAT: &str = "../include/guard_format.h";
/// What the names of the header begin with, and those for Rust do not.
const PREFIX: &str = "GUARD_";

fn main() {
    if let Err(message) = link().and_then(|()| write_constants()) {
        eprintln!("{message}");
        process::exit(1);
    }
}

fn link() -> Result<(), String> {
    println!("cargo:rerun-if-env-changed=GUARD_ARCHIVE_DIR");
    let asked = OTHER_ARCHIVES
        .iter()
        .filter(|(_, feature)| env::var_os(feature).is_some())
        .map(|&(archive, _)| archive);
    let archives: Vec<&str> = ["guard"].into_iter().chain(asked).collect();
    let named = env::var("GUARD_ARCHIVE_DIR")
        .map_err(|_| "GUARD_ARCHIVE_DIR has to name the folder that holds libguard.a")?;
    let folder =
        fs::canonicalize(&named).map_err(|error| format!("GUARD_ARCHIVE_DIR={named}: {error}"))?;
    println!("cargo:rustc-link-search=native={}", folder.display());
    for archive in archives {
        let file = folder.join(format!("lib{archive}.a"));
        if !file.is_file() {
            return Err(format!("{} is missing", file.display()));
        }
        println!("cargo:rerun-if-changed={}", file.display());
        println!("cargo:rustc-link-lib=static={archive}");
    }
    Ok(())
}

fn write_constants() -> Result<(), String> {
    println!("cargo:rerun-if-changed={FORMAT}");
    let header = fs::read_to_string(FORMAT).map_err(|error| format!("{FORMAT}: {error}"))?;
    let folder = PathBuf::from(env::var_os("OUT_DIR").expect("cargo names the folder"));
    let file = folder.join("format.rs");
    fs::write(&file, constants(&header)?).map_err(|error| format!("{}: {error}", file.display()))
}

/// A constant for each name in an enum of the header. The values are expressions of both languages.
fn constants(header: &str) -> Result<String, String> {
    let text = without_comments(header);
    let bodies = text
        .split("enum {")
        .skip(1)
        .filter_map(|rest| rest.split('}').next());
    let mut constants = String::new();
    for entry in bodies.flat_map(|body| body.split(',')) {
        let (name, value) = entry
            .split_once('=')
            .ok_or_else(|| format!("{FORMAT}: no value in '{}'", entry.trim()))?;
        let name = name.trim().strip_prefix(PREFIX);
        let name = name.ok_or_else(|| format!("{FORMAT}: another name in '{}'", entry.trim()))?;
        let value = value.replace(PREFIX, "");
        let value = value.split_whitespace().collect::<Vec<_>>().join(" ");
        constants.push_str(&format!("pub const {name}: usize = {value};\n"));
    }
    Ok(constants)
}

fn without_comments(text: &str) -> String {
    let mut parts = text.split("/*");
    let first = parts.next().unwrap_or_default().to_string();
    parts
        .filter_map(|part| part.split_once("*/"))
        .fold(first, |text, (_, rest)| text + rest)
}
