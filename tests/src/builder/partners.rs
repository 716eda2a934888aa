//! A sample of the release profile: a co-operative that marks its rows with the partner stores that they may
//! go to.

use super::sample::{component, label, rights};
use super::{Edition, Levels, Policy, Profile, User};

const PRICES: u64 = 1 << 0;
const STOCK: u64 = 1 << 1;
const BOTH: u64 = PRICES | STOCK;
const HARBOUR: u64 = 1 << 0;
const MILL: u64 = 1 << 1;
const ORCHARD: u64 = 1 << 2;
const ALL: u64 = HARBOUR | MILL | ORCHARD;
const OPEN: u8 = 0;
const TRADE: u8 = 1;
const SEALED: u8 = 2;
const READ: u8 = 1;

/// Three partners, rows that are released to one of them, to two, to none and to all, and five users, in
/// edition 1.
pub fn partners() -> Policy {
    Policy {
        edition: Edition::One,
        profile: Profile::Release,
        levels: vec![
            component("OPEN", 100, None),
            component("TRADE", 200, None),
            component("SEALED", 300, None),
        ],
        compartments: vec![component("PRICES", 10, None), component("STOCK", 20, None)],
        groups: vec![
            component("HARBOUR", 1, None),
            component("MILL", 2, None),
            component("ORCHARD", 3, None),
        ],
        labels: vec![
            label(10, TRADE, PRICES, HARBOUR),
            label(20, TRADE, PRICES, HARBOUR | MILL),
            label(30, TRADE, PRICES, 0),
            label(40, TRADE, PRICES, ALL),
            label(50, OPEN, 0, MILL),
            label(60, TRADE, STOCK, HARBOUR | ORCHARD),
            label(70, SEALED, 0, ALL),
        ],
        users: vec![anna(), hugo(), mila(), nils(), olga()],
    }
}

/// A user whose default and row level is TRADE. Groups to write are those to read.
fn user(
    name: &str,
    [maximum, minimum]: [u8; 2],
    compartments: [u64; 4],
    [read, default, row]: [u64; 3],
) -> User {
    User {
        name: name.to_string(),
        privileges: 0,
        levels: Levels {
            maximum,
            minimum,
            default: TRADE,
            row: TRADE,
        },
        compartments: rights(compartments),
        groups: rights([read, read, default, row]),
    }
}

/// Of the co-operative itself: she reads rows whatever partner they go to. Her own go to two.
fn anna() -> User {
    let compartments = [BOTH, BOTH, BOTH, PRICES];
    user(
        "ANNA",
        [SEALED, TRADE],
        compartments,
        [0, 0, HARBOUR | MILL],
    )
}

/// Of HARBOUR.
fn hugo() -> User {
    let compartments = [BOTH, PRICES, BOTH, PRICES];
    user("HUGO", [TRADE, OPEN], compartments, [HARBOUR; 3])
}

/// Of MILL.
fn mila() -> User {
    let groups = [MILL, MILL, HARBOUR | MILL];
    user("MILA", [TRADE, TRADE], [PRICES, PRICES, PRICES, 0], groups)
}

/// Of HARBOUR and MILL: he reads what goes to both.
fn nils() -> User {
    let compartments = [PRICES, PRICES, PRICES, 0];
    user("NILS", [SEALED, OPEN], compartments, [HARBOUR | MILL; 3])
}

/// Of ORCHARD, with READ.
fn olga() -> User {
    let compartments = [BOTH, STOCK, STOCK, STOCK];
    User {
        privileges: READ,
        ..user("OLGA", [SEALED, OPEN], compartments, [ORCHARD; 3])
    }
}

/// Rows of 16 bytes: a tag of 4 bytes and a text of 12.
const ROWS: [(u32, &[u8; 12]); 8] = [
    (30, b"not released"),
    (10, b"harbour only"),
    (20, b"both of them"),
    (0, b"no label yet"),
    (40, b"all partners"),
    (50, b"mill opening"),
    (60, b"apple crates"),
    (70, b"sealed offer"),
];

/// The table that stands beside the sample.
pub fn partners_table() -> Vec<u8> {
    let rows = ROWS.map(|(tag, text)| [&tag.to_le_bytes()[..], text].concat());
    rows.concat()
}
