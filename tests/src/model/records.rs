//! The rules of records: those that a record keeps by itself, and those between two of them.

use super::counts::Kind;
use super::groups::below;
use super::layout::{set_at, sets_at, u16_at, u32_at, Image, COMPARTMENT_SET};
use super::places::Places;
use super::profile::Profile;

/// Whether the record at a place keeps all rules that look at no other record of its kind.
pub fn holds(image: &Image, kind: Kind, place: usize) -> bool {
    match kind {
        Kind::Component => component_holds(image, place),
        Kind::Label => label_holds(image, place),
        Kind::User => user_holds(image, place),
    }
}

/// The pairs of records that clash, by their places, the earlier first.
pub fn clashes(image: &Image, kind: Kind) -> Vec<(usize, usize)> {
    let next = |place: usize| (place - 1, place);
    match kind {
        Kind::Component => component_clashes(image),
        Kind::Label => (1..image.counts.labels().count)
            .map(next)
            .filter(|&(earlier, later)| tag(image, earlier) >= tag(image, later))
            .collect(),
        Kind::User => (1..image.counts.users().count)
            .map(next)
            .filter(|&(earlier, later)| user_name(image, earlier) >= user_name(image, later))
            .collect(),
    }
}

pub fn all_zero(bytes: &[u8]) -> bool {
    bytes.iter().all(|&byte| byte == 0)
}

/// A component of another class than the counts put at its place is at fault itself.
fn component_holds(image: &Image, place: usize) -> bool {
    let record = image.component(place);
    let class = class_at(image, place);
    record[0] == class
        && name_holds(record[1], &record[2..32])
        && u16_at(record, 32) <= 9_999
        && parent_holds(image, class, image.parent(record))
        && all_zero(&record[image.edition().parent.end..])
}

/// A group may have another, or itself, as its parent; by R-10 there are "no parents" in the release profile.
fn parent_holds(image: &Image, class: u8, parent: usize) -> bool {
    let is_group = class == 3 && parent < image.counts.groups;
    parent == image.edition().no_parent || is_group && image.profile() == Profile::Tree
}

/// The class that the counts put at a place among all components.
fn class_at(image: &Image, place: usize) -> u8 {
    let compartments = image.counts.levels;
    let groups = compartments + image.counts.compartments;
    if place < compartments {
        1
    } else if place < groups {
        2
    } else {
        3
    }
}

/// "Inside a class the numeric form rises strictly and names differ." The pairs are told by their places
/// among all components.
fn component_clashes(image: &Image) -> Vec<(usize, usize)> {
    let mut clashes = Vec::new();
    for class in [1, 2, 3] {
        let (first, count) = image.counts.class(class).unwrap_or_default();
        let records = (first..first + count).map(|place| image.component(place));
        let known: Vec<_> = records.map(|it| (u16_at(it, 32), name_of(it, 1))).collect();
        for (later, (number, name)) in known.iter().enumerate() {
            let clash = |&it: &usize| known[it].0 >= *number || known[it].1 == *name;
            let earlier = (0..later).filter(clash);
            clashes.extend(earlier.map(|earlier| (first + earlier, first + later)));
        }
    }
    clashes
}

fn tag(image: &Image, label: usize) -> usize {
    u32_at(image.label(label), 0)
}

fn user_name<'a>(image: &'a Image, user: usize) -> &'a [u8] {
    name_of(image.user(user), 0)
}

/// A name's length, its bytes and the zeros after it.
fn name_holds(length: u8, field: &[u8]) -> bool {
    let length = usize::from(length);
    (1..=30).contains(&length)
        && field[..length].iter().all(is_name_byte)
        && all_zero(&field[length..])
}

pub fn is_name_byte(byte: &u8) -> bool {
    matches!(byte, b'A'..=b'Z' | b'0'..=b'9' | b'_')
}

/// The name whose length stands at `at`, right before it. A length over 30 is a fault of its
/// record.
pub fn name_of(record: &[u8], at: usize) -> &[u8] {
    &record[at + 1..][..usize::from(record[at]).min(30)]
}

fn label_holds(image: &Image, place: usize) -> bool {
    let record = image.label(place);
    let compartments = set_at(record, 8, COMPARTMENT_SET);
    (1..=99_999_999).contains(&tag(image, place))
        && usize::from(record[4]) < image.counts.levels
        && all_zero(&record[5..8])
        && compartments.all_below(image.counts.compartments)
        && image.label_groups(record).all_below(image.counts.groups)
}

fn user_holds(image: &Image, place: usize) -> bool {
    let record = image.user(place);
    let [maximum, minimum, default, row] = [32, 33, 34, 35].map(|at| record[at]);
    let levels = [maximum, minimum, default, row];
    let groups = image.user_groups(record);
    let end = 72 + groups.len() * image.edition().group_set;
    let privileges = image.edition().privileges & image.profile().privileges();
    name_holds(record[0], &record[1..31])
        && record[31] & !privileges == 0
        && levels
            .iter()
            .all(|&level| usize::from(level) < image.counts.levels)
        && minimum <= row
        && row <= default
        && default <= maximum
        && all_zero(&record[36..40])
        && compartments_hold(image, record)
        && groups.iter().all(|set| set.all_below(image.counts.groups))
        && all_zero(&record[end..])
}

fn compartments_hold(image: &Image, record: &[u8]) -> bool {
    let sets = sets_at(record, 40, COMPARTMENT_SET);
    let [read, write, default, row] = &sets;
    sets.iter()
        .all(|set| set.all_below(image.counts.compartments))
        && write.is_subset(read)
        && default.is_subset(read)
        && row.is_subset(default)
        && row.is_subset(write)
}

/// The rules of a user's groups, which come last: those by below, or in the release profile those in their
/// place.
pub fn user_groups_hold(image: &Image, place: usize) -> bool {
    let sets = image.user_groups(image.user(place));
    match image.profile() {
        Profile::Tree => by_below(image, sets),
        Profile::Release => by_release(sets),
    }
}

fn by_below(image: &Image, [read, write, default, row]: [Places; 4]) -> bool {
    let below_read = below(image, &read);
    write.is_subset(&below_read)
        && default.is_subset(&below_read)
        && row.is_subset(&below(image, &default))
        && row.is_subset(&below(image, &write))
}

/// Default groups "contain all of the user's read groups", "row groups must contain default groups, and write
/// groups equal read groups".
fn by_release([read, write, default, row]: [Places; 4]) -> bool {
    read.is_subset(&default) && default.is_subset(&row) && write == read
}
