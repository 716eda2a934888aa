//! Programs that let hidden rows show, each in one way, to know that such ways are found.

mod mapped;

use super::program::{HostCall, Model, Program};
use super::scene::Scene;
use crate::builder::{to_image, Profile, Set};
use crate::calls::Call;
use crate::ffi::Answer;
use crate::row_calls::{Lent, RowCall};
use std::cell::{Cell, RefCell};

#[derive(Clone, Copy, Debug, PartialEq, Eq)]
pub enum Leak {
    /// A read's count has the hidden rows in it.
    Count,
    /// A read asks for room for the whole table.
    Room,
    /// A read's first row has a byte that hidden rows add to.
    Bytes,
    /// An update's n counts hidden rows too.
    Number,
    /// Where there is no row n, its refusal tells how many rows there are.
    Place,
    /// Where there is no row n, the refusal is 15 if there are hidden rows.
    Refusal,
    /// An update writes into the row after row n too.
    NextRow,
    /// An update exchanges the first row and the last.
    Moved,
    /// An opened session has a byte from the table of the row call before.
    Opening,
    /// A label change is refused if the table of the row call before had many rows.
    LabelChange,
    /// A label change lets the user go past the maximum read label, and so does all else.
    Maximum,
    /// A row call takes a given session that is past the maximum read label.
    Session,
    /// A mapped read takes every map that is as long as the right one.
    MapTaken,
    /// A mapped read judges its map, and then goes by the map that the mapped read before was lent.
    MapOld,
    /// A mapped read judges only the bits that it looks up.
    MapLookedUp,
    /// A mapped read hands out rows of unknown tags.
    MapUnknown,
}

impl Leak {
    pub const ALL: [Leak; 16] = [
        Leak::Count,
        Leak::Room,
        Leak::Bytes,
        Leak::Number,
        Leak::Place,
        Leak::Refusal,
        Leak::NextRow,
        Leak::Moved,
        Leak::Opening,
        Leak::LabelChange,
        Leak::Maximum,
        Leak::Session,
        Leak::MapTaken,
        Leak::MapOld,
        Leak::MapLookedUp,
        Leak::MapUnknown,
    ];

    /// Whether only mapped reads have it.
    fn is_of_maps(self) -> bool {
        use Leak::*;
        matches!(self, MapTaken | MapOld | MapLookedUp | MapUnknown)
    }
}

/// The image of the scene's policy with all that there is to read for the scene's user. In the release profile
/// the most is read without read groups.
pub fn lifted(scene: &Scene) -> Vec<u8> {
    let mut policy = scene.policy.clone();
    let user = &mut policy.users[scene.user];
    user.levels.maximum = policy.levels.len() as u8 - 1;
    user.compartments.read = Set::first(policy.compartments.len());
    match policy.profile {
        Profile::Tree => user.groups.read = Set::first(policy.groups.len()),
        Profile::Release => {
            user.groups.read = Set::NONE;
            user.groups.write = Set::NONE;
        }
    }
    to_image(&policy)
}

/// The model with a leak.
pub struct Leaky<'a> {
    scene: &'a Scene,
    model: Model<'a>,
    /// The model on the lifted image.
    lifted: Model<'a>,
    leak: Leak,
    /// The rows of the table of the last row call.
    seen: Cell<usize>,
    /// The map of the last mapped read.
    old_map: RefCell<Vec<u8>>,
}

impl<'a> Leaky<'a> {
    pub fn new(scene: &'a Scene, lifted: &'a [u8], leak: Leak) -> Leaky<'a> {
        Leaky {
            scene,
            model: Model::new(&scene.image),
            lifted: Model::new(lifted),
            leak,
            seen: Cell::new(0),
            old_map: RefCell::default(),
        }
    }

    fn rows<'b>(&self, table: &'b [u8]) -> std::slice::Chunks<'b, u8> {
        table.chunks(self.scene.width)
    }

    fn hidden(&self, table: &[u8]) -> usize {
        let rows = self.rows(table);
        rows.filter(|row| self.scene.is_hidden(row)).count()
    }

    fn read(&self, call: &HostCall, lent: &mut Lent) -> Answer {
        let before = lent.clone();
        let answer = self.model.ask(call, lent);
        let Answer::Done(count) = answer else {
            return answer;
        };
        match self.leak {
            Leak::Count => Answer::Done(count + self.hidden(&lent.table) as u64),
            Leak::Room if lent.buffer.len() < lent.table.len() => {
                *lent = before;
                refused(13, 0)
            }
            Leak::Bytes if count > 0 => {
                let hidden = self
                    .rows(&lent.table)
                    .filter(|row| self.scene.is_hidden(row));
                let sum = hidden.fold(0, |sum: u8, row| sum.wrapping_add(row[4]));
                lent.buffer[4] = lent.buffer[4].wrapping_add(sum);
                answer
            }
            _ => answer,
        }
    }

    fn update(&self, call: &HostCall, n: usize, lent: &mut Lent) -> Answer {
        let before = lent.table.clone();
        let mut call = call.clone();
        if self.leak == Leak::Number {
            let skipped = self.rows(&lent.table).take(n);
            let hidden = skipped.filter(|row| self.scene.is_hidden(row)).count();
            if let HostCall::Rows(RowCall::Update { n, .. }) = &mut call {
                *n -= hidden;
            }
        }
        let answer = self.model.ask(&call, lent);
        let is_past = answer == refused(14, 0);
        let rows = self.rows(&lent.table).count();
        match self.leak {
            Leak::Place if is_past => return refused(14, rows as u32),
            Leak::Refusal if is_past && self.hidden(&lent.table) > 0 => return refused(15, 0),
            Leak::NextRow => self.write_next(&before, &mut lent.table),
            Leak::Moved if answer == Answer::Done(0) => self.exchange_ends(&mut lent.table),
            _ => {}
        }
        answer
    }

    /// Where a row changed, the last byte of the next row changes too.
    fn write_next(&self, before: &[u8], table: &mut [u8]) {
        let width = self.scene.width;
        let changed = self.rows(before).zip(self.rows(table));
        let place = changed.into_iter().position(|(old, new)| old != new);
        let next = place.map(|place| (place + 2) * width - 1);
        if let Some(byte) = next.and_then(|at| table.get_mut(at)) {
            *byte ^= 1;
        }
    }

    fn exchange_ends(&self, table: &mut [u8]) {
        let width = self.scene.width;
        let last = table.len() - width;
        if last > 0 {
            let (front, back) = table.split_at_mut(last);
            front[..width].swap_with_slice(back);
        }
    }

    fn session_call(&self, call: &Call, ask: &HostCall, lent: &mut Lent) -> Answer {
        let seen = self.seen.get();
        let is_open = matches!(call, Call::Open(_));
        if self.leak == Leak::LabelChange && !is_open && seen > 12 {
            return refused(8, 0);
        }
        let answer = self.model.ask(ask, lent);
        if self.leak == Leak::Opening && is_open && answer == Answer::Done(0) {
            lent.session[2] = seen as u8;
        }
        answer
    }
}

fn refused(number: u32, place: u32) -> Answer {
    Answer::Refused { number, place }
}

impl Program for Leaky<'_> {
    fn start(&self) {
        self.seen.set(0);
        self.old_map.take();
    }

    fn ask(&self, ask: &HostCall, lent: &mut Lent) -> Answer {
        match ask {
            _ if self.leak == Leak::Maximum => self.lifted.ask(ask, lent),
            HostCall::Rows(_) if self.leak == Leak::Session => self.lifted.ask(ask, lent),
            HostCall::Session(call) => self.session_call(call, ask, lent),
            HostCall::Rows(call) => {
                self.seen.set(self.rows(&lent.table).count());
                match call {
                    RowCall::Update { n, .. } => self.update(ask, *n, lent),
                    RowCall::ReadMapped { map, .. } if self.leak.is_of_maps() => {
                        self.read_mapped(ask, map, lent)
                    }
                    _ => self.read(ask, lent),
                }
            }
        }
    }
}
