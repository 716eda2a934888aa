//! Damage to a user's rules (34 at its record), those by below among them.

use super::{places, Draft, Expected};
use crate::builder::layout::RecordAt;
use crate::builder::{user_record, Edition, Policy, Rights, Set, User, COMPACCESS};
use crate::rng::Rng;
use std::ops::Range;

pub fn any(draft: &Draft, rng: &mut Rng) -> Option<RecordAt> {
    Some(draft.policy.user_at(any_place(draft, rng)?))
}

pub fn any_place(draft: &Draft, rng: &mut Rng) -> Option<usize> {
    let [.., users] = draft.policy.runs();
    places::any(&users, rng)
}

/// The place of a user who has one before.
fn later(draft: &Draft, rng: &mut Rng) -> Option<usize> {
    let in_block = draft.edition().users().in_block;
    places::later(0, draft.policy.users.len(), in_block, rng)
}

/// Writes the record of a user as the policy now has it.
pub fn rewrite(draft: &mut Draft, place: usize) -> Option<Expected> {
    let record = user_record(draft.edition(), &draft.policy.users[place]);
    draft.break_record(draft.policy.user_at(place), 0, &record)
}

pub fn name_equal(draft: &mut Draft, rng: &mut Rng) -> Option<Expected> {
    let place = later(draft, rng)?;
    rename(draft, place, draft.policy.users[place - 1].name.clone())
}

/// A name with one byte lower than the name before it has there.
pub fn name_lower(draft: &mut Draft, rng: &mut Rng) -> Option<Expected> {
    let place = later(draft, rng)?;
    let before = draft.policy.users[place - 1].name.as_bytes();
    let at = rng.index(before.len());
    let mut name = before.to_vec();
    name[at] = match before[at] {
        b'0' => return None,
        b'A' => b'9',
        b'_' => b'Z',
        byte => byte - 1,
    };
    rename(draft, place, String::from_utf8(name).ok()?)
}

/// A name that begins the name before it.
pub fn name_begins(draft: &mut Draft, rng: &mut Rng) -> Option<Expected> {
    let place = later(draft, rng)?;
    let before = &draft.policy.users[place - 1].name;
    let length = (before.len() > 1).then(|| rng.range(1, before.len() - 1))?;
    rename(draft, place, before[..length].to_string())
}

fn rename(draft: &mut Draft, place: usize, name: String) -> Option<Expected> {
    draft.policy.users[place].name = name;
    rewrite(draft, place)
}

pub fn privilege_128(draft: &mut Draft, rng: &mut Rng) -> Option<Expected> {
    let at = any(draft, rng)?;
    let value = draft.get(at.offset + 31) | 128;
    draft.break_record(at, 31, &[value])
}

/// Edition 2 or the release profile: a user holds COMPACCESS beside what else is held.
pub fn compaccess(draft: &mut Draft, rng: &mut Rng) -> Option<Expected> {
    let at = any(draft, rng)?;
    let value = draft.get(at.offset + 31) | COMPACCESS;
    draft.break_record(at, 31, &[value])
}

pub fn minimum_over_row(draft: &mut Draft, rng: &mut Rng) -> Option<Expected> {
    levels(draft, rng, |low, top| [top, low + 1, top, low])
}

pub fn row_over_default(draft: &mut Draft, rng: &mut Rng) -> Option<Expected> {
    levels(draft, rng, |low, top| [top, low, low, low + 1])
}

pub fn default_over_maximum(draft: &mut Draft, rng: &mut Rng) -> Option<Expected> {
    levels(draft, rng, |low, _| [low, low, low + 1, low])
}

/// Maximum, minimum, default and row level from a level that isn't the highest, and the highest.
fn levels(draft: &mut Draft, rng: &mut Rng, choose: fn(u8, u8) -> [u8; 4]) -> Option<Expected> {
    let at = any(draft, rng)?;
    let top = draft.policy.levels.len().checked_sub(1)?;
    let low = rng.place(0, top)?;
    draft.break_record(at, 32, &choose(low as u8, top as u8))
}

pub fn maximum_missing(draft: &mut Draft, rng: &mut Rng) -> Option<Expected> {
    level_missing(draft, rng, &[32])
}

pub fn default_missing(draft: &mut Draft, rng: &mut Rng) -> Option<Expected> {
    level_missing(draft, rng, &[32, 34])
}

pub fn row_missing(draft: &mut Draft, rng: &mut Rng) -> Option<Expected> {
    level_missing(draft, rng, &[32, 34, 35])
}

pub fn minimum_missing(draft: &mut Draft, rng: &mut Rng) -> Option<Expected> {
    level_missing(draft, rng, &[32, 33, 34, 35])
}

/// A level that does not exist, with those that may not be lower, so that the order is kept.
fn level_missing(draft: &mut Draft, rng: &mut Rng, bytes: &[usize]) -> Option<Expected> {
    let at = any(draft, rng)?;
    let count = draft.policy.levels.len();
    let level = rng.with_ends(count, 255);
    for byte in bytes {
        draft.put(at.offset + byte, &[level as u8]);
    }
    draft.break_record(at, bytes[0], &[level as u8])
}

pub fn compartment_missing(draft: &mut Draft, rng: &mut Rng) -> Option<Expected> {
    let count = draft.policy.compartments.len();
    place_missing(draft, rng, count..64, |user| &mut user.compartments)
}

pub fn group_missing(draft: &mut Draft, rng: &mut Rng) -> Option<Expected> {
    let count = draft.policy.groups.len();
    let most = draft.edition().most_groups();
    place_missing(draft, rng, count..most, |user| &mut user.groups)
}

/// Adds a place that the policy lacks to a set and to those that must hold the set.
fn place_missing(
    draft: &mut Draft,
    rng: &mut Rng,
    lacking: Range<usize>,
    rights: fn(&mut User) -> &mut Rights,
) -> Option<Expected> {
    let user = any_place(draft, rng)?;
    if lacking.is_empty() {
        return None;
    }
    let none = Set::NONE;
    let one = Set::of(rng.with_ends(lacking.start, lacking.end - 1));
    let (write, default, row) = *rng.pick(&[
        (none, none, none),
        (one, none, none),
        (none, one, none),
        (one, one, one),
    ]);
    let rights = rights(&mut draft.policy.users[user]);
    rights.read |= one;
    rights.write |= write;
    rights.default |= default;
    rights.row |= row;
    rewrite(draft, user)
}

/// The rules among a user's read, write, default and row sets.
#[derive(Clone, Copy)]
pub enum Inclusion {
    WriteInRead,
    DefaultInRead,
    RowInDefault,
    RowInWrite,
}

impl Inclusion {
    pub const ALL: [Inclusion; 4] = [
        Inclusion::WriteInRead,
        Inclusion::DefaultInRead,
        Inclusion::RowInDefault,
        Inclusion::RowInWrite,
    ];

    /// Which of read, write, default and row have a place, where only this rule is broken.
    fn broken(self, one: Set) -> [Set; 4] {
        let none = Set::NONE;
        match self {
            Inclusion::WriteInRead => [none, one, none, none],
            Inclusion::DefaultInRead => [none, none, one, none],
            Inclusion::RowInDefault => [one, one, none, one],
            Inclusion::RowInWrite => [one, none, one, one],
        }
    }
}

/// Puts one compartment into some of read, write, default and row, and takes it from the others.
pub fn compartment(draft: &mut Draft, rng: &mut Rng, rule: Inclusion) -> Option<Expected> {
    let user = any_place(draft, rng)?;
    let count = draft.policy.compartments.len().min(64);
    let one = Set::of(rng.place(0, count)?);
    let rights = &mut draft.policy.users[user].compartments;
    with_one(rights, one, rule.broken(one));
    rewrite(draft, user)
}

/// Takes one place from all sets, and adds these to them.
pub fn with_one(rights: &mut Rights, one: Set, [read, write, default, row]: [Set; 4]) {
    rights.read = rights.read & !one | read;
    rights.write = rights.write & !one | write;
    rights.default = rights.default & !one | default;
    rights.row = rights.row & !one | row;
}

/// Breaks a rule by below for any user.
pub fn group(draft: &mut Draft, rng: &mut Rng, rule: Inclusion) -> Option<Expected> {
    let place = any_place(draft, rng)?;
    group_of(draft, rng, rule, place)
}

/// Puts one group into some of a user's sets. From the others it goes with its ancestors, and what
/// they then no longer reach goes too, so that no other rule is broken.
pub fn group_of(
    draft: &mut Draft,
    rng: &mut Rng,
    rule: Inclusion,
    place: usize,
) -> Option<Expected> {
    let count = draft.policy.groups.len().min(draft.edition().most_groups());
    let group = rng.place(0, count)?;
    let policy: &Policy = &draft.policy;
    let old = &policy.users[place].groups;
    let ancestors = policy.with_ancestors(group);
    let keep = |set: Set, added: Set| match added.is_empty() {
        true => set & !ancestors,
        false => set,
    };
    let [read, write, default, row] = rule.broken(Set::of(group));
    let new_read = keep(old.read, read) | read;
    let reach = policy.below(new_read);
    let new_write = keep(old.write, write) & reach | write;
    let new_default = keep(old.default, default) & reach | default;
    let both = policy.below(new_write) & policy.below(new_default);
    draft.policy.users[place].groups = Rights {
        read: new_read,
        write: new_write,
        default: new_default,
        row: keep(old.row, row) & both | row,
    };
    rewrite(draft, place)?;
    Expected::below(draft.policy.user_at(place))
}

/// The unused bytes at the end of a record, which edition 2 has not.
fn tail(edition: Edition) -> Range<usize> {
    72 + 4 * edition.group_set()..edition.users().size
}

/// The last unused byte of a record.
pub fn last_unused(edition: Edition) -> usize {
    tail(edition).last().unwrap_or(39)
}

pub fn unused(draft: &mut Draft, rng: &mut Rng) -> Option<Expected> {
    let at = any(draft, rng)?;
    let tail = tail(draft.edition());
    let byte = if rng.once_in(2) || tail.is_empty() {
        rng.with_ends(36, 39)
    } else {
        rng.with_ends(tail.start, tail.end - 1)
    };
    let value = rng.nonzero();
    draft.break_record(at, byte, &[value])
}
