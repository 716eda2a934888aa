//! Request R-4: the map of a session over the label records, and reading rows by it.

use super::layout::{u32_at, Image};
use super::session::{user_of, Session};
use super::table::{rows, tag};
use super::verdict::{label_at, reads_label, reads_unknown};
use super::Refusal;
use std::collections::BTreeMap;

/// The session's map, for a buffer of `room` bytes.
pub fn map(image: &Image, session: &Session, room: usize) -> Result<Vec<u8>, Refusal> {
    let map = right_map(image, session)?;
    match map.len() > room {
        true => Err(Refusal::Room),
        false => Ok(map),
    }
}

/// A lent map is "accepted exactly if it is the map for that image and session".
pub fn judge_map(image: &Image, session: &Session, map: &[u8]) -> Result<(), Refusal> {
    match right_map(image, session)? == map {
        true => Ok(()),
        false => Err(Refusal::Map),
    }
}

/// "A row read with a map judges the map and then looks up bits only." A tag that no label record has has no
/// bit; such rows are handed out where the plain read does it. The buffer has `room` bytes.
pub fn read_mapped<'a>(
    image: &Image,
    session: &Session,
    table: &'a [u8],
    width: usize,
    map: &[u8],
    room: usize,
) -> Result<Vec<&'a [u8]>, Refusal> {
    let user = user_of(image, session)?;
    let rows = rows(table, width)?;
    judge_map(image, session, map)?;
    let bits = bits_by_tag(image, map);
    let unknown = reads_unknown(image, &user);
    let bit = |row: &&[u8]| bits.get(&tag(row)).copied().unwrap_or(unknown);
    let handed_out: Vec<&[u8]> = rows.into_iter().filter(bit).collect();
    match handed_out.len() * width > room {
        true => Err(Refusal::Room),
        false => Ok(handed_out),
    }
}

/// "One bit for each label record, bit p mod 8 of byte p div 8, set exactly if a session may read that label;
/// as few bytes as hold them, spare bits zero."
fn right_map(image: &Image, session: &Session) -> Result<Vec<u8>, Refusal> {
    let user = user_of(image, session)?;
    let labels = image.counts.labels().count;
    let mut map = vec![0; labels.div_ceil(8)];
    for place in 0..labels {
        if reads_label(image, &user, &session.label, &label_at(image, place)) {
            map[place / 8] |= 1 << (place % 8);
        }
    }
    Ok(map)
}

/// For the tag of each label record its bit in a map.
fn bits_by_tag(image: &Image, map: &[u8]) -> BTreeMap<u32, bool> {
    let places = 0..image.counts.labels().count;
    let bit = |place: usize| map[place / 8] >> (place % 8) & 1 == 1;
    places
        .map(|place| (u32_at(image.label(place), 0) as u32, bit(place)))
        .collect()
}
