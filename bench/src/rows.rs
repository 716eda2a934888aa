//! What the row calls are lent: an image, a session that reads 70 % of a table's rows, or all, its map, the
//! table, and the length of a read's buffer.

use crate::images::Of;
use crate::who::On;
use brawnesk_tests::builder::{to_image, Label, Policy, Profile, User};
use brawnesk_tests::ffi::SESSION;
use brawnesk_tests::model;
use brawnesk_tests::rng::Rng;
use std::collections::BTreeSet;

pub const READ: u8 = 1;
pub const READ_OR_FULL: u8 = 3;
const COMPACCESS: u8 = 4;

/// How many of a hundred rows are readable, for a session that doesn't read all tags.
const SHARE: usize = 70;

#[derive(Clone, Copy)]
pub enum Room {
    /// As long as the table.
    Table,
    /// As long as the result, which is counted first.
    Result,
    /// A byte shorter than the result.
    Short,
}

/// The tags of a table's rows.
#[derive(Clone, Copy, PartialEq, Eq)]
pub enum Drawn {
    /// From the tags of labels, so that the session reads as many rows as told.
    Known,
    /// No label carries one, and they all differ.
    Unknown,
}

#[derive(Clone, Copy)]
pub struct Shape {
    /// The image that the table stands beside, and whose session reads it.
    pub on: On,
    pub width: usize,
    pub rows: usize,
    pub drawn: Drawn,
    pub room: Room,
}

/// What calls without a table are lent.
pub const NO_ROWS: Shape = Shape {
    on: On::reader(Of::Full),
    width: 10,
    rows: 0,
    drawn: Drawn::Known,
    room: Room::Table,
};

pub struct Rows {
    pub image: Vec<u8>,
    pub session: [u8; SESSION],
    pub map: Vec<u8>,
    /// How many tags the session reads, of how many.
    pub tags: (usize, usize),
    pub table: Vec<u8>,
    pub width: usize,
    /// The last of all rows, which is also the last readable one and writable, where tags are known.
    pub last: usize,
    pub readable: usize,
    pub room: usize,
    pub payload: Vec<u8>,
    pub mask: Vec<u8>,
}

impl Rows {
    pub fn new(shape: &Shape) -> Rows {
        let Shape { width, rows, .. } = *shape;
        let policy = shape.on.policy();
        let image = to_image(&policy);
        let accepted = model::accepted(&image).expect("the image keeps all rules");
        let user = shape.on.who.user(&policy);
        let session = model::open(&accepted, user.name.as_bytes()).expect("a user of the image");
        let tags = Tags::new(&policy, user);
        let is_writable = |tag: &&u32| model::may_write(&accepted, &session, **tag) == Ok(true);
        let writable = tags.readable.iter().find(is_writable);
        let last = *writable.expect("a tag that is readable and writable");
        let mut rng = Rng::new(1);
        let (readable, drawn) = match shape.drawn {
            Drawn::Known => (tags.count_of(rows), tags.known(rows, last, &mut rng)),
            Drawn::Unknown => (0, tags.unknown(rows, &mut rng)),
        };
        let result = readable * width;
        Rows {
            session: session.to_bytes(),
            map: tags.map(&policy),
            tags: (tags.readable.len(), policy.labels.len()),
            table: table(drawn, width, &mut rng),
            width,
            last: rows.saturating_sub(1),
            readable,
            room: match shape.room {
                Room::Table => rows * width,
                Room::Result => result,
                Room::Short => result - 1,
            },
            payload: bytes(width - 4, &mut rng),
            mask: b"HIDDEN".to_vec(),
            image,
        }
    }
}

/// Of the users with neither READ nor FULL, the one whose opened session reads the most tags.
pub fn reader(policy: &Policy) -> &User {
    let ruled = policy.users.iter();
    let ruled = ruled.filter(|user| user.privileges & READ_OR_FULL == 0);
    let reader = ruled.max_by_key(|user| Tags::new(policy, user).readable.len());
    reader.expect("there is such a user")
}

/// The tags of an image by the verdicts of a session that is opened for a user.
struct Tags {
    readable: Vec<u32>,
    hidden: Vec<u32>,
}

impl Tags {
    fn new(policy: &Policy, user: &User) -> Tags {
        let groups = user.groups.default;
        let below = policy.below(groups);
        let has_compaccess = user.privileges & COMPACCESS != 0;
        let by_groups = |label: &Label| match policy.profile {
            Profile::Tree => label.groups.is_empty() || label.groups.meets(below),
            Profile::Release => groups.is_in(label.groups),
        };
        let is_readable = |label: &&Label| {
            let by_label = label.level <= user.levels.default
                && label.compartments.is_in(user.compartments.default)
                && (by_groups(label) || has_compaccess && !label.compartments.is_empty());
            user.privileges & READ_OR_FULL != 0 || by_label
        };
        let (readable, hidden): (Vec<_>, Vec<_>) = policy.labels.iter().partition(is_readable);
        let tags = |labels: Vec<&Label>| labels.iter().map(|label| label.tag).collect();
        Tags {
            readable: tags(readable),
            hidden: tags(hidden),
        }
    }

    /// How many of so many rows are readable.
    fn count_of(&self, rows: usize) -> usize {
        match self.hidden.is_empty() {
            true => rows,
            false => rows * SHARE / 100,
        }
    }

    /// A bit for each label; both the labels and the readable tags rise.
    fn map(&self, policy: &Policy) -> Vec<u8> {
        let bit = |label: &Label| u8::from(self.readable.binary_search(&label.tag).is_ok());
        let byte = |labels: &[Label]| {
            let bits = labels.iter().zip(0..);
            bits.fold(0, |byte, (label, place)| byte | bit(label) << place)
        };
        policy.labels.chunks(8).map(byte).collect()
    }

    /// The tags of rows in no order, but for the last one's.
    fn known(&self, rows: usize, last: u32, rng: &mut Rng) -> Vec<u32> {
        let kind = |row: usize| match row < self.count_of(rows) {
            true => &self.readable,
            false => &self.hidden,
        };
        let mut tags: Vec<u32> = (1..rows).map(|row| *rng.pick(kind(row))).collect();
        rng.shuffle(&mut tags);
        tags.resize(rows, last);
        tags
    }

    fn unknown(&self, rows: usize, rng: &mut Rng) -> Vec<u32> {
        let has = |tags: &[u32], tag: &u32| tags.binary_search(tag).is_ok();
        let mut tags = BTreeSet::new();
        while tags.len() < rows {
            let tag = rng.range(1, 99_999_999) as u32;
            if !has(&self.readable, &tag) && !has(&self.hidden, &tag) {
                tags.insert(tag);
            }
        }
        let mut tags = Vec::from_iter(tags);
        rng.shuffle(&mut tags);
        tags
    }
}

/// Rows with these tags.
fn table(tags: Vec<u32>, width: usize, rng: &mut Rng) -> Vec<u8> {
    let row = |tag: u32| [tag.to_le_bytes().to_vec(), bytes(width - 4, rng)].concat();
    tags.into_iter().flat_map(row).collect()
}

fn bytes(count: usize, rng: &mut Rng) -> Vec<u8> {
    (0..count).map(|_| rng.byte()).collect()
}
