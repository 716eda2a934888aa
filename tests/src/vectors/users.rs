//! A user in a vector file: what the line leaves out is filled in by rule F of the worked examples.

use super::{first_word, place_of, read_label, read_sets};
use crate::builder::{Label, Levels, Policy, Profile, Rights, Set, User};

/// The names of the privilege bits, from bit 1 on.
const PRIVILEGES: [&str; 7] = [
    "READ",
    "FULL",
    "COMPACCESS",
    "PROFILE_ACCESS",
    "WRITEUP",
    "WRITEDOWN",
    "WRITEACROSS",
];

/// NAME DEFAULT FIELD=VALUE .. The minimum is the lowest level, the maximum is the default's level,
/// the read sets are the default's, the write sets are the read sets, the row label is the minimum
/// alone, and there are no privileges, if the fields don't say otherwise. In the release profile the row label
/// has the default's groups.
pub fn read_user(policy: &Policy, text: &'static str) -> User {
    let (name, rest) = text.split_once(' ').expect("a name and a default label");
    let (default, rest) = rest.split_once(' ').unwrap_or((rest, ""));
    let default = read_label(policy, default);
    let fields: Vec<(&str, &str)> = rest.split_whitespace().map(read_field).collect();
    let value = |name: &str| fields.iter().find(|(it, _)| *it == name).map(|it| it.1);
    let level = |name: &str| value(name).map(|level| place_of(&policy.levels, level) as u8);
    let sets = |name: &str| value(name).map(|sets| read_sets(policy, sets));
    let minimum = level("min").unwrap_or(0);
    let read = sets("read").unwrap_or((default.compartments, default.groups));
    let write = sets("write").unwrap_or(read);
    let row_groups = match policy.profile {
        Profile::Tree => Set::NONE,
        Profile::Release => default.groups,
    };
    let row = value("row").map(|label| read_label(policy, label));
    let row = row.map_or((minimum, Set::NONE, row_groups), |it| {
        (it.level, it.compartments, it.groups)
    });
    User {
        name: name.to_string(),
        privileges: value("has").map_or(0, read_privileges),
        levels: Levels {
            maximum: level("max").unwrap_or(default.level),
            minimum,
            default: default.level,
            row: row.0,
        },
        compartments: rights(read.0, write.0, default.compartments, row.1),
        groups: rights(read.1, write.1, default.groups, row.2),
    }
}

fn rights(read: Set, write: Set, default: Set, row: Set) -> Rights {
    Rights {
        read,
        write,
        default,
        row,
    }
}

fn read_field(field: &'static str) -> (&'static str, &'static str) {
    let (name, value) = field.split_once('=').expect("FIELD=VALUE");
    let is_known = ["max", "min", "read", "write", "row", "has"].contains(&name);
    assert!(is_known, "no field {name}");
    (name, value)
}

fn read_privileges(list: &str) -> u8 {
    let bit = |name: &str| PRIVILEGES.iter().position(|other| *other == name);
    list.split(',').fold(0, |bits, name| {
        let bit = bit(name).unwrap_or_else(|| panic!("no privilege {name}"));
        bits | 1 << bit
    })
}

/// TAG TEXT: a label under a tag.
pub fn read_tagged(policy: &Policy, text: &'static str) -> Label {
    let (tag, label) = first_word(text);
    Label {
        tag: tag.parse().expect("a tag"),
        ..read_label(policy, label)
    }
}
