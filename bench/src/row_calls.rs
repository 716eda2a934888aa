//! The measured row calls, each by the library and by the plain version.

use crate::by_model;
use crate::calls::Call;
use crate::images::Of;
use crate::plain::calls as plain;
use crate::rows::{Drawn, Room, Shape};
use crate::scene::{Out, Scene};
use crate::who::On;
use brawnesk_tests::ffi::{self, Answer, SESSION};

type Read = fn(&[u8], &[u8; SESSION], &[u8], usize, &mut [u8]) -> Answer;
type ReadMapped = fn(&[u8], &[u8; SESSION], &[u8], usize, &[u8], &mut [u8]) -> Answer;
type Update = fn(&[u8], &[u8; SESSION], &mut [u8], usize, usize, &[u8]) -> Answer;
type Masked = fn(&[u8], &[u8; SESSION], &[u8], usize, usize, &[u8]) -> Answer;

fn read_by(read: Read, scene: &Scene, out: &mut Out) -> Answer {
    let rows = &scene.rows;
    let (image, session) = (&rows.image, &rows.session);
    read(image, session, &rows.table, rows.width, &mut out.rows)
}

fn mapped_by(read: ReadMapped, scene: &Scene, out: &mut Out) -> Answer {
    let rows = &scene.rows;
    let (image, session, table) = (&rows.image, &rows.session, &rows.table);
    read(image, session, table, rows.width, &rows.map, &mut out.rows)
}

/// The last readable row.
fn update_by(update: Update, scene: &Scene, out: &mut Out) -> Answer {
    let rows = &scene.rows;
    let (image, session, table) = (&rows.image, &rows.session, &mut out.table);
    let n = rows.readable - 1;
    update(image, session, table, rows.width, n, &rows.payload)
}

/// The last place.
fn masked_by(masked: Masked, scene: &Scene) -> Answer {
    let rows = &scene.rows;
    let (image, session, table) = (&rows.image, &rows.session, &rows.table);
    masked(image, session, table, rows.width, rows.last, &rows.mask)
}

/// A read of the largest tables may take at most so many percent of what the plain version takes. Few
/// rows cost less than the check, which has limits of its own.
const OF_PLAIN: Option<u32> = Some(120);

/// A mapped read of a large table takes at most what the plain read of it does, and one of few rows 5 % more
/// than judging its map.
const OF_READ: Option<u32> = Some(100);
const OF_JUDGING: Option<u32> = Some(105);

const fn read(name: &'static str, limit: Option<u32>, shape: Shape) -> Call {
    Call {
        name,
        function: "read",
        limit,
        shape: Some(shape),
        ours: |scene, out| read_by(ffi::read, scene, out),
        plain: Some(|scene, out| read_by(plain::read, scene, out)),
        model: |scene, out| read_by(by_model::read, scene, out),
    }
}

const fn mapped(name: &'static str, limit: Option<u32>, shape: Shape) -> Call {
    Call {
        name,
        function: "read_mapped",
        limit,
        shape: Some(shape),
        ours: |scene, out| mapped_by(ffi::read_mapped, scene, out),
        plain: Some(|scene, out| mapped_by(plain::read_mapped, scene, out)),
        model: |scene, out| mapped_by(by_model::read_mapped, scene, out),
    }
}

const fn update(name: &'static str, shape: Shape) -> Call {
    Call {
        name,
        function: "update",
        limit: None,
        shape: Some(shape),
        ours: |scene, out| update_by(ffi::update, scene, out),
        plain: Some(|scene, out| update_by(plain::update, scene, out)),
        model: |scene, out| update_by(by_model::update, scene, out),
    }
}

const fn masked(name: &'static str, shape: Shape) -> Call {
    Call {
        name,
        function: "masked",
        limit: None,
        shape: Some(shape),
        ours: |scene, _| masked_by(ffi::masked, scene),
        plain: Some(|scene, _| masked_by(plain::masked, scene)),
        model: |scene, _| masked_by(by_model::masked, scene),
    }
}

/// As many rows of the width as 1 MiB holds.
const fn largest(width: usize, room: Room) -> Shape {
    Shape {
        on: On::reader(Of::Full),
        width,
        rows: (1 << 20) / width,
        drawn: Drawn::Known,
        room,
    }
}

/// The same, with tags that no label carries.
const fn unknown(width: usize) -> Shape {
    let shape = largest(width, Room::Table);
    let drawn = Drawn::Unknown;
    Shape { drawn, ..shape }
}

/// Rows of 10 bytes, read to a buffer as long as they are.
const fn tens(of: Of, rows: usize) -> Shape {
    Shape {
        on: On::reader(of),
        width: 10,
        rows,
        drawn: Drawn::Known,
        room: Room::Table,
    }
}

/// Rows of 64 bytes.
const fn longer(rows: usize) -> Shape {
    let shape = tens(Of::Full, rows);
    Shape { width: 64, ..shape }
}

pub const ROW_CALLS: &[Call] = &[
    read("read-10", OF_PLAIN, largest(10, Room::Table)),
    read("read-64", OF_PLAIN, largest(64, Room::Table)),
    read("read-10-counted", OF_PLAIN, largest(10, Room::Result)),
    read("read-64-counted", OF_PLAIN, largest(64, Room::Result)),
    read("read-10-refused", OF_PLAIN, largest(10, Room::Short)),
    read("read-64-refused", OF_PLAIN, largest(64, Room::Short)),
    read("unknown-10", OF_PLAIN, unknown(10)),
    read("unknown-64", OF_PLAIN, unknown(64)),
    update("update-10", largest(10, Room::Table)),
    update("update-64", largest(64, Room::Table)),
    masked("masked-10", largest(10, Room::Table)),
    masked("masked-64", largest(64, Room::Table)),
    read("rows-0", None, tens(Of::Full, 0)),
    read("rows-20", None, tens(Of::Full, 20)),
    read("rows-1000", None, tens(Of::Full, 1_000)),
    read("rows-10000", None, tens(Of::Full, 10_000)),
    read("rows-100000", None, tens(Of::Full, 100_000)),
    read("rows64-20", None, longer(20)),
    read("rows64-48", None, longer(48)),
    read("rows64-100", None, longer(100)),
    read("rows64-200", None, longer(200)),
    read("rows64-300", None, longer(300)),
    read("rows64-1000", None, longer(1_000)),
    read("rows64-3000", None, longer(3_000)),
    read("lean-0", None, tens(Of::Lean, 0)),
    read("lean-10000", None, tens(Of::Lean, 10_000)),
    read("sample-0", None, tens(Of::Sample, 0)),
    read("sample-10000", None, tens(Of::Sample, 10_000)),
];

/// To see how a read grows with its rows, up to as many as 1 MiB holds.
pub const GROWING_READS: &[Call] = &[
    read("rows-13107", None, tens(Of::Full, 13_107)),
    read("rows-26214", None, tens(Of::Full, 26_214)),
    read("rows-52428", None, tens(Of::Full, 52_428)),
    read("rows-104857", None, tens(Of::Full, 104_857)),
];

pub const MAPPED_READS: &[Call] = &[
    mapped("mapped-20", OF_JUDGING, tens(Of::Full, 20)),
    mapped("mapped-10", OF_READ, largest(10, Room::Table)),
    mapped("mapped-64", OF_READ, largest(64, Room::Table)),
];

#[cfg(test)]
mod tests {
    use super::*;
    use crate::asked::Asked;

    /// All versions agree; a read gives the rows that the scene tells of, and the last row is one of them.
    #[test]
    fn answers_are_as_told() {
        for call in ROW_CALLS.iter().chain(MAPPED_READS) {
            let asked = Asked { call, on: None };
            let scene = asked.scene();
            let wanted = match (call.function, call.shape.map(|shape| shape.room)) {
                ("read", Some(Room::Short)) => Answer::Refused {
                    number: 13,
                    place: 0,
                },
                ("read" | "read_mapped", _) => Answer::Done(scene.rows.readable as u64),
                ("masked", _) => Answer::Done(1),
                _ => Answer::Done(0),
            };
            assert_eq!(asked.agreed(&scene), wanted, "{}", call.name);
        }
    }
}
