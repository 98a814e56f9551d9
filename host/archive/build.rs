//! Links the compiled path manager from the repository's target/staticlib, and writes the header's numbers and texts as Rust.
//!
//! Both archives have farnkuppel_interface, and a program can have it once: the desk's has another name in a copy of its archive.

use std::env;
use std::fs;
use std::path::Path;
use std::process::Command;

const PREFIX: &str = "FARNKUPPEL_";

/// A number of the header, by its name without the prefix.
struct Number {
    name: String,
    value: u32,
}

/// A row of the header's table of refusals: its number, its name and its words, in quotes.
struct Row {
    number: Number,
    words: String,
}

/// A C number: decimal or hexadecimal, with or without a `u`.
fn value_of(text: &str) -> Option<u32> {
    let digits = text.trim_end_matches('u');
    match digits.strip_prefix("0x") {
        Some(hex) => u32::from_str_radix(hex, 16).ok(),
        None => digits.parse().ok(),
    }
}

/// The number of a line `#define NAME VALUE`, or `NAME = VALUE` as in an enum.
fn number_of(line: &str) -> Option<Number> {
    let line = line.trim_start();
    let defined = line.strip_prefix("#define ");
    let (name, rest) = defined.unwrap_or(line).strip_prefix(PREFIX)?.split_once(' ')?;
    let value = if defined.is_some() { rest } else { rest.strip_prefix("= ")? };
    let value = value_of(value.split([' ', ',', '\n']).next()?)?;
    Some(Number { name: name.to_string(), value })
}

/// The row of a line `ROW(NUMBER, NAME, "WORDS")`.
fn row_of(line: &str) -> Option<Row> {
    let (row, _) = line.trim_start().strip_prefix("ROW(")?.rsplit_once(')')?;
    let mut parts = row.splitn(3, ", ");
    let value = value_of(parts.next()?)?;
    let name = format!("REFUSED_{}", parts.next()?);
    Some(Row { number: Number { name, value }, words: parts.next()?.to_string() })
}

/// The release, in quotes.
fn release_of(header: &str) -> &str {
    let line = header.lines().find_map(|line| line.strip_prefix("#define FARNKUPPEL_RELEASE "));
    line.expect("the header has a release number")
}

/// A module with all numbers in a type.
fn module(name: &str, of: &str, numbers: &[&Number]) -> String {
    let constant = |n: &&Number| format!("    pub const {}: {of} = {};\n", n.name, n.value);
    let constants: String = numbers.iter().map(constant).collect();
    format!("/// The header's numbers as {of}.\npub mod {name} {{\n{constants}}}\n")
}

/// The header as Rust.
fn written(header: &str) -> String {
    let rows: Vec<Row> = header.lines().filter_map(row_of).collect();
    assert!(!rows.is_empty(), "the header has a table of refusals");
    let named: Vec<Number> = header.lines().filter_map(number_of).collect();
    let numbers: Vec<&Number> = named.iter().chain(rows.iter().map(|row| &row.number)).collect();
    let words: String = rows.iter().map(|r| format!("    ({}, {}),\n", r.number.value, r.words)).collect();
    let refusals = format!(
        "/// Each refusal's number and words.\npub const REFUSALS: [(u32, &str); {}] = [\n{words}];\n",
        rows.len()
    );
    let release = format!("/// The release of the whole.\npub const RELEASE: &str = {};\n", release_of(header));
    release + &refusals + &module("number", "u32", &numbers) + &module("size", "usize", &numbers)
}

/// Has an archive linked, from the folder that it stands in.
fn link(folder: &str, name: &str) {
    println!("cargo:rustc-link-search=native={folder}");
    println!("cargo:rustc-link-lib=static={name}");
}

/// Sees to it that an archive is there, and that it is linked again when it changes.
fn expect(archive: &str) {
    assert!(Path::new(archive).is_file(), "{archive} is missing: tools/archives makes it");
    println!("cargo:rerun-if-changed={archive}");
}

/// Links both archives, the desk's by a copy.
fn link_both(archives: &str, out: &str) {
    let (autopilot, desk) = (format!("{archives}/libautopilot.a"), format!("{archives}/libdesk.a"));
    expect(&autopilot);
    expect(&desk);
    let renamed = Command::new("objcopy")
        .args(["--redefine-sym", "farnkuppel_interface=farnkuppel_desk_interface"])
        .args([desk, format!("{out}/libdesk_renamed.a")])
        .status();
    assert!(renamed.expect("objcopy is there").success(), "objcopy renames a function of libdesk.a");
    link(archives, "autopilot");
    link(out, "desk_renamed");
}

fn main() {
    let here = env::var("CARGO_MANIFEST_DIR").expect("cargo names the crate's folder");
    let out = env::var("OUT_DIR").expect("cargo names a folder for what is built");
    println!("cargo:rerun-if-changed=build.rs");
    link_both(&format!("{here}/../../target/staticlib"), &out);
    let name = format!("{here}/../../include/farnkuppel.h");
    println!("cargo:rerun-if-changed={name}");
    let header = fs::read_to_string(&name).expect("the header can be read");
    fs::write(format!("{out}/header.rs"), written(&header)).expect("the header's numbers can be written");
}
