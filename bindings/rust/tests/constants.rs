//! The constants of the C header are those of this crate: the same names, the same numbers, and no others.

use brawnesk::*;
use std::collections::BTreeMap;

type Constants = BTreeMap<String, u64>;

fn source(path: &str) -> String {
    let path = format!("{}/{path}", env!("CARGO_MANIFEST_DIR"));
    std::fs::read_to_string(path).expect("a source")
}

/// The numbers that the header's enums give, `enum { BRAWNESK_TAG = 4, .. };` in one line each.
fn of_header(header: &str) -> Constants {
    let lines = header
        .lines()
        .filter_map(|line| line.strip_prefix("enum { BRAWNESK_"));
    let entries = lines.flat_map(|line| {
        let (entries, _) = line.split_once(" };").expect("the end of an enum");
        entries.split(", BRAWNESK_")
    });
    let constants = entries.filter(|entry| !entry.starts_with("REFUSALS("));
    constants.map(constant).collect()
}

/// `TAG = 4`.
fn constant(entry: &str) -> (String, u64) {
    let (name, number) = entry.split_once(" = ").expect("a number");
    (name.to_string(), number.parse().expect("a number"))
}

/// Pairs of a name and a number.
macro_rules! named {
    ($($name:ident)*) => { [$((stringify!($name).to_string(), $name as u64)),*] };
}

/// `KIND_HEADER` of `Kind::Header`, as the header has it.
macro_rules! cases {
    ($prefix:literal, $($case:path),*) => {
        [$((in_capitals($prefix, stringify!($case)), $case as u64)),*]
    };
}

/// `PRIVILEGE_PROFILE_ACCESS` of `Privilege::ProfileAccess`.
fn in_capitals(prefix: &str, path: &str) -> String {
    let (_, case) = path.split_once("::").expect("a case of an enum");
    let letters = case.chars().flat_map(|letter| {
        let before = letter.is_uppercase().then_some('_');
        before.into_iter().chain(letter.to_uppercase())
    });
    prefix.chars().chain(letters).collect()
}

fn of_this_crate() -> Constants {
    let limits = named![BLOCK BLOCKS IMAGE MOVED LEVELS COMPARTMENTS GROUPS_1 GROUPS_2 LABELS_1 LABELS_2
        USERS_1 USERS_2 NAME NUMERIC_FORM ROW_MIN ROW_MAX TAG TAG_MAX LABEL TEXT TEXT_1 SESSION MAP];
    let records = named![COMPONENT_SIZE COMPONENTS_IN_BLOCK LABEL_SIZE_1 LABEL_SIZE_2 LABELS_IN_BLOCK_1
        LABELS_IN_BLOCK_2 USER_SIZE_1 USER_SIZE_2 USERS_IN_BLOCK_1 USERS_IN_BLOCK_2];
    let kinds = cases![
        "KIND",
        Kind::Header,
        Kind::Components,
        Kind::Labels,
        Kind::Users
    ];
    let classes = cases!["CLASS", Class::Level, Class::Compartment, Class::Group];
    let profiles = cases!["PROFILE", Profile::Parents, Profile::Release];
    let privileges = cases![
        "PRIVILEGE",
        Privilege::Read,
        Privilege::Full,
        Privilege::Compaccess,
        Privilege::ProfileAccess,
        Privilege::Writeup,
        Privilege::Writedown,
        Privilege::Writeacross
    ];
    let names = kinds.into_iter().chain(classes).chain(profiles);
    let all = limits.into_iter().chain(records).chain(names);
    all.chain(privileges).collect()
}

#[test]
fn the_header_has_the_same_constants() {
    let header = of_header(&source("../../include/brawnesk.h"));
    assert_eq!(header.len(), 49);
    assert_eq!(header, of_this_crate());
}

/// The version of the header, of this crate's constants and of its package are one.
#[test]
fn there_is_one_version() {
    let header = source("../../include/brawnesk.h");
    for (name, number) in [("MAJOR", VERSION_MAJOR), ("MINOR", VERSION_MINOR)] {
        let line = format!("\n#define BRAWNESK_VERSION_{name} {number}\n");
        assert!(header.contains(&line), "{name}");
    }
    let package = concat!(
        env!("CARGO_PKG_VERSION_MAJOR"),
        ".",
        env!("CARGO_PKG_VERSION_MINOR")
    );
    assert_eq!(package, format!("{VERSION_MAJOR}.{VERSION_MINOR}"));
}
