//! The move up of request R-11: an image of edition 1 as one of edition 2.

use super::compaccess::holders;
use super::counts::{Counts, Kind};
use super::edition::{ONE, TWO};
use super::lay_out::{lay_out, two_bytes};
use super::layout::Image;
use super::{fitting, of_edition_1, Refusal};

/// The moved image, for a buffer of `room` bytes. "37 for a move up of over 800 labels or 32 users, then
/// 13." By R-12: "36, with their number, for a plain move up with holders, after 37 and before 13."
pub fn move_up(image: &[u8], room: usize) -> Result<Vec<u8>, Refusal> {
    let image = of_edition_1(image)?;
    let [_, labels, users] = image.counts.runs();
    if labels.count > TWO.labels || users.count > TWO.users {
        return Err(Refusal::Size);
    }
    let holders = holders(&image).len();
    if holders > 0 {
        return Err(Refusal::Holders(holders));
    }
    fitting(moved(&image), room)
}

/// "The same profile, components, labels and users in the new layouts."
fn moved(image: &Image) -> Vec<u8> {
    let counts = Counts {
        edition: &TWO,
        ..image.counts
    };
    let lists = image.counts.runs().map(|run| {
        let records = (0..run.count).map(|place| record(image, run.kind, place));
        records.collect::<Vec<_>>().concat()
    });
    lay_out(&counts, lists.each_ref().map(Vec::as_slice))
}

/// The record at a place, in its new layout.
fn record(image: &Image, kind: Kind, place: usize) -> Vec<u8> {
    match kind {
        Kind::Component => component(image, place),
        Kind::Label => with_sets(&image.label(place)[..24], 16),
        Kind::User => with_sets(&image.user(place)[..104], 72),
    }
}

fn component(image: &Image, place: usize) -> Vec<u8> {
    let old = image.component(place);
    let parent = match image.parent(old) {
        parent if parent == ONE.no_parent => TWO.no_parent,
        parent => parent,
    };
    let mut record = old.to_vec();
    record[TWO.parent.clone()].copy_from_slice(&two_bytes(parent));
    record
}

/// A record that ends with sets of groups, which begin at `at`; each gets the bytes that it lacks.
fn with_sets(old: &[u8], at: usize) -> Vec<u8> {
    let (front, sets) = old.split_at(at);
    let mut record = front.to_vec();
    for set in sets.chunks(ONE.group_set) {
        let length = record.len();
        record.extend(set);
        record.resize(length + TWO.group_set, 0);
    }
    record
}
