//! The C header and `src/raw.rs` declare what the library's source does: the same functions, each with
//! the same arguments in the same order, by name and by type. bindings/check.sh compares the names with
//! those that the archive exports.

use brawnesk::{LABEL, SESSION};
use std::collections::BTreeMap;
use std::fs::DirEntry;

/// An argument: its name, and its type as C has it.
type Argument = (String, &'static str);

/// The arguments of each function.
type Declarations = BTreeMap<String, Vec<Argument>>;

const READS: &str = "const uint8_t *";
const WRITES: &str = "uint8_t *";
const LENGTH: &str = "size_t";

/// The functions whose declarations begin with these words before the name and end with those after
/// the arguments.
fn declared(
    source: &str,
    begin: &str,
    end: &str,
    argument: fn(&str) -> Vec<Argument>,
) -> Declarations {
    let begin = format!("{begin} brawnesk_");
    let functions = source.split(&begin).skip(1).map(|rest| {
        let (name, rest) = rest.split_once('(').expect("arguments");
        let (arguments, rest) = rest.split_once(')').expect("their end");
        assert!(rest.starts_with(end), "{name} does not end with {end}");
        let arguments = arguments.split(',').map(str::trim);
        let arguments = arguments.filter(|argument| !argument.is_empty());
        (name.to_string(), arguments.flat_map(argument).collect())
    });
    functions.collect()
}

/// `const uint8_t *image`.
fn c_argument(text: &str) -> Vec<Argument> {
    let known = [READS, WRITES, "uint8_t ", "uint32_t ", "size_t "];
    let found = known
        .iter()
        .find_map(|kind| Some((text.strip_prefix(kind)?, kind.trim())));
    let (name, kind) = found.unwrap_or_else(|| panic!("in C: {text}"));
    vec![(name.to_string(), kind)]
}

/// `image: *const u8`.
fn rust_argument(text: &str) -> Vec<Argument> {
    let (name, kind) = text.split_once(": ").expect("a type");
    let kind = match kind {
        "*const u8" => READS,
        "*mut u8" => WRITES,
        "usize" => LENGTH,
        "u8" => "uint8_t",
        "u32" => "uint32_t",
        _ => panic!("in Rust: {text}"),
    };
    vec![(name.to_string(), kind)]
}

/// `image: &[u8]`, which C has as a pointer and a length, or `session: &[u8; 104]`, which is a pointer, as that of
/// a label is.
/// `class` is no name for C++, and a name that the code does not use begins with an underscore.
fn rattle_argument(text: &str) -> Vec<Argument> {
    let (name, kind) = text.split_once(": ").expect("a type");
    let name = match name {
        "class" => "component_class",
        _ => name.trim_start_matches('_'),
    };
    let one = |kind| vec![(name.to_string(), kind)];
    let slice = |kind| vec![(name.to_string(), kind), (format!("{name}_length"), LENGTH)];
    let arrays = [LABEL, SESSION].map(|length| format!("[u8; {length}]"));
    let is_array = |kind: &str| arrays.iter().any(|array| array == kind);
    match kind {
        "&[u8]" => slice(READS),
        "&mut [u8]" => slice(WRITES),
        _ if kind.strip_prefix("&mut ").is_some_and(is_array) => one(WRITES),
        _ if kind.strip_prefix("&").is_some_and(is_array) => one(READS),
        "usize" => one(LENGTH),
        "u8" => one("uint8_t"),
        "u32" => one("uint32_t"),
        _ => panic!("in Rattle: {text}"),
    }
}

fn source(path: &str) -> String {
    let path = format!("{}/{path}", env!("CARGO_MANIFEST_DIR"));
    std::fs::read_to_string(path).expect("a source")
}

/// What any file of the library's C functions exports.
fn exported() -> Declarations {
    let folder = concat!(env!("CARGO_MANIFEST_DIR"), "/../../crates/abi_c/src");
    let files = std::fs::read_dir(folder).expect("a folder of sources");
    let text = |file: std::io::Result<DirEntry>| {
        std::fs::read_to_string(file.expect("a file").path()).expect("a source")
    };
    let library: String = files.map(text).collect();
    declared(&library, "pub extern \"C\" fn", " -> u64", rattle_argument)
}

#[test]
fn the_header_declares_the_functions_as_they_are() {
    let header = source("../../include/brawnesk.h");
    let header = declared(&header, "\nuint64_t", ";", c_argument);
    assert!(header.contains_key("check"));
    assert_eq!(header, exported());
}

#[test]
fn this_crate_declares_the_functions_as_they_are() {
    let raw = declared(&source("src/raw.rs"), "pub fn", " -> u64;", rust_argument);
    assert!(raw.contains_key("check"));
    assert_eq!(raw, exported());
}
