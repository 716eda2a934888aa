//! Row calls by edition, profile and seed, which name a policy, sessions of its users, and tables whose rows are
//! read, updated, read masked and read by maps, with right arguments and wrong ones.

pub mod by_hand;
pub mod numbers;
mod tally;

pub use tally::RowTally;

use crate::builder::Variant;
use crate::ffi::{Answer, SESSION};
use crate::maps::{any_map, map_of, MapKind};
use crate::model::{self, Image, Session};
use crate::rng::Rng;
use crate::row_calls::{Lent, RowCall};
use crate::walk::Walk;
use numbers::{any_place, bytes, outside_width, payload, room, wrapping_place};

/// The length of the largest tables; 1 MiB.
pub const LARGEST: usize = 1 << 20;

/// How many calls on sessions come before the row calls.
const SESSION_CALLS: usize = 16;

/// How many calls a table has, on average.
const CALLS_EACH: usize = 8;

/// A row call: what it is lent, and what the model gives.
pub struct Step<'a> {
    pub image: &'a [u8],
    pub call: RowCall,
    pub lent: Lent,
    pub answer: Answer,
    pub after: Lent,
    /// The bytes of the rows that the session may read, on the policy's own image.
    pub needed: usize,
    /// The privileges of the session's user, if there is such a user.
    pub privileges: Option<u8>,
    /// What the lent map is beside the session's own, if there are both.
    pub map: Option<MapKind>,
}

/// Shows the first row calls of an edition and a seed. A table that the model updates is lent again
/// later.
pub fn each_row_call(
    variant: impl Into<Variant>,
    seed: u64,
    count: usize,
    mut see: impl FnMut(&Step),
) {
    let mut walk = Walk::new(variant, seed);
    let images = walk.images();
    let checked: Vec<_> = images.iter().map(|image| model::accepted(image)).collect();
    let own = model::accepted(&images[0]).expect("the policy is well-formed");
    walk.wander(&checked[0], SESSION_CALLS);
    let mut table = Table::new(&mut walk);
    for _ in 0..count {
        if walk.rng.once_in(CALLS_EACH) {
            table = Table::new(&mut walk);
        }
        let image = walk.image(images.len());
        let session = walk.session();
        let width = table.call_width(&mut walk.rng);
        let readable = readable(&own, &session, &table.bytes, width);
        let mut call = table.call(width, readable, &mut walk.rng);
        if walk.rng.once_in(4) {
            let map = any_map(&own, &session, &mut walk);
            call = RowCall::ReadMapped { width, map };
        }
        let needed = readable * width;
        let lent = table.lent(session, &call, needed, &mut walk.rng);
        let mut after = lent.clone();
        let answer = call.by_model(&checked[image], &mut after);
        table.bytes.clone_from(&after.table);
        see(&Step {
            image: &images[image],
            answer,
            after,
            needed,
            privileges: walk.privileges(&lent.session),
            map: map_kind(&own, &call, &session),
            call,
            lent,
        });
    }
}

/// What a mapped read's map is beside the session's own.
fn map_kind(image: &Image, call: &RowCall, session: &[u8; SESSION]) -> Option<MapKind> {
    let RowCall::ReadMapped { map, .. } = call else {
        return None;
    };
    let right = map_of(image, session)?;
    Some(MapKind::of(&right, image.counts.labels().count, map))
}

/// How many rows a session may read; none, where the call is refused.
pub fn readable(image: &Image, session: &[u8; SESSION], table: &[u8], width: usize) -> usize {
    let rows = model::read(image, &Session::read(session), table, width, usize::MAX);
    rows.map_or(0, |rows| rows.len())
}

/// A row: its tag, and a random payload.
pub fn row(tag: u32, width: usize, rng: &mut Rng) -> Vec<u8> {
    [tag.to_le_bytes().to_vec(), bytes(width - 4, rng)].concat()
}

/// Rows of one width. The length may be spoiled.
struct Table {
    width: usize,
    bytes: Vec<u8>,
}

impl Table {
    fn new(walk: &mut Walk) -> Table {
        let tags: Vec<u32> = (0..walk.rng.range(1, 12)).map(|_| walk.tag()).collect();
        let rng = &mut walk.rng;
        let width = any_width(rng);
        let mut bytes = Vec::new();
        for _ in 0..any_count(width, rng) {
            bytes.extend(row(*rng.pick(&tags), width, rng));
        }
        if rng.once_in(16) {
            spoil_length(&mut bytes, width, rng);
        }
        Table { width, bytes }
    }

    /// Mostly the table's own; else one outside the limits, or another that at times divides the
    /// length. A large table has too many tags at another width.
    fn call_width(&self, rng: &mut Rng) -> usize {
        let length = self.bytes.len();
        let is_large = length > 20_000;
        match rng.index(24) {
            0 | 1 => outside_width(self.width, rng),
            2 if !is_large => rng.range(5, 512),
            3 if !is_large => {
                let divides = |width: &usize| length.is_multiple_of(*width);
                let widths: Vec<usize> = (5..=512).filter(divides).collect();
                rng.place(0, widths.len())
                    .map_or(self.width, |at| widths[at])
            }
            _ => self.width,
        }
    }

    /// A call at a width at which so many rows are readable.
    fn call(&self, width: usize, readable: usize, rng: &mut Rng) -> RowCall {
        match rng.index(5) {
            0 | 1 => RowCall::Read { width },
            2 | 3 => RowCall::Update {
                width,
                n: any_place(readable, rng),
                payload: payload(width, rng),
            },
            _ => RowCall::Masked {
                width,
                place: self.place(rng),
                mask: mask(rng),
            },
        }
    }

    fn place(&self, rng: &mut Rng) -> usize {
        let rows = self.bytes.len() / self.width;
        match rng.index(8) {
            0 => wrapping_place(rows, self.width, rng),
            _ => any_place(rows, rng),
        }
    }

    /// What the call is lent. Only a read has a buffer.
    fn lent(&self, session: [u8; SESSION], call: &RowCall, needed: usize, rng: &mut Rng) -> Lent {
        let room = match call.hands_out() {
            true => room(needed, rng),
            false => 0,
        };
        Lent {
            session,
            table: self.bytes.clone(),
            buffer: bytes(room, rng),
        }
    }
}

fn any_width(rng: &mut Rng) -> usize {
    match rng.index(4) {
        0 => rng.with_ends(5, 512),
        1 => 1 << rng.range(3, 9),
        _ => rng.range(5, 24),
    }
}

/// Mostly few rows; at times none or many, and now and then as many as fit in the largest table.
fn any_count(width: usize, rng: &mut Rng) -> usize {
    match rng.index(300) {
        0..=3 => LARGEST / width,
        4..=9 => rng.range(100, 2_000),
        10..=33 => 0,
        _ => rng.range(1, 24),
    }
}

/// Some bytes more or less, so that the length is no multiple of the width.
fn spoil_length(table: &mut Vec<u8>, width: usize, rng: &mut Rng) {
    let by = rng.with_ends(1, width - 1);
    if table.is_empty() || rng.once_in(2) {
        table.extend(bytes(by, rng));
    } else {
        table.truncate(table.len() - by);
    }
}

fn mask(rng: &mut Rng) -> Vec<u8> {
    let length = match rng.index(4) {
        0 => 0,
        1 => rng.range(1, 1_000),
        _ => rng.range(1, 16),
    };
    bytes(length, rng)
}
