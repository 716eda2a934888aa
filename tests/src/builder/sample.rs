//! The sample co-operative of document 01.

use super::{Component, Edition, Label, Levels, Policy, Profile, Rights, Set, User};

const KILN: u64 = 1 << 0;
const GLAZE: u64 = 1 << 1;
const WORKS: u64 = 1 << 0;
const NORTH: u64 = 1 << 1;
const DOCK: u64 = 1 << 2;
const OPEN: u8 = 0;
const CREW: u8 = 1;
const VAULT: u8 = 2;

/// The co-operative with MARA and the labels 10, 20 and 30 of the report's example, in edition 1.
pub fn sample() -> Policy {
    Policy {
        edition: Edition::One,
        profile: Profile::Tree,
        levels: vec![
            component("OPEN", 100, None),
            component("CREW", 200, None),
            component("VAULT", 300, None),
        ],
        compartments: vec![component("KILN", 10, None), component("GLAZE", 20, None)],
        groups: vec![
            component("WORKS", 1, None),
            component("NORTH", 2, Some(0)),
            component("DOCK", 3, Some(1)),
            component("SOUTH", 4, Some(0)),
        ],
        labels: vec![
            label(10, CREW, KILN, DOCK),
            label(20, CREW, 0, WORKS),
            label(30, OPEN, 0, 0),
        ],
        users: vec![mara()],
    }
}

fn mara() -> User {
    User {
        name: "MARA".to_string(),
        privileges: 0,
        levels: Levels {
            maximum: VAULT,
            minimum: CREW,
            default: CREW,
            row: CREW,
        },
        compartments: rights([KILN | GLAZE, KILN, KILN | GLAZE, KILN]),
        groups: rights([NORTH, DOCK, NORTH, DOCK]),
    }
}

pub fn rights(sets: [u64; 4]) -> Rights {
    let [read, write, default, row] = sets.map(Set::from);
    Rights {
        read,
        write,
        default,
        row,
    }
}

pub fn component(name: &str, number: u16, parent: Option<u16>) -> Component {
    Component {
        name: name.to_string(),
        number,
        parent,
    }
}

pub fn label(tag: u32, level: u8, compartments: u64, groups: u64) -> Label {
    Label {
        tag,
        level,
        compartments: compartments.into(),
        groups: groups.into(),
    }
}
