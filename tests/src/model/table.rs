//! Tables: reading the readable rows, updating one of them, and masked reading.

use super::layout::{u32_at, Image};
use super::session::{user_of, Session};
use super::verdict::{may_read, may_write};
use super::Refusal;
use std::collections::{BTreeMap, BTreeSet};

/// What masked reading hands back.
#[derive(Clone, Copy, Debug, PartialEq, Eq)]
pub enum Masked<'a> {
    Payload(&'a [u8]),
    Mask(&'a [u8]),
}

/// "Reading copies the readable rows whole, in order, to the front of a second buffer and reports how
/// many." The buffer has `room` bytes.
pub fn read<'a>(
    image: &Image,
    session: &Session,
    table: &'a [u8],
    width: usize,
    room: usize,
) -> Result<Vec<&'a [u8]>, Refusal> {
    user_of(image, session)?;
    let rows = rows(table, width)?;
    let places = readable(image, session, &rows)?;
    if places.len() * width > room {
        return Err(Refusal::Room);
    }
    Ok(places.into_iter().map(|place| rows[place]).collect())
}

/// "Updating takes n, counted from 0 among rows readable now, and a payload of width minus 4 bytes; it
/// replaces that row's payload and nothing else." Gives the table after it.
pub fn update(
    image: &Image,
    session: &Session,
    table: &[u8],
    width: usize,
    n: usize,
    payload: &[u8],
) -> Result<Vec<u8>, Refusal> {
    user_of(image, session)?;
    let mut rows = rows(table, width)?;
    if payload.len() != width - 4 {
        return Err(Refusal::Payload);
    }
    let places = readable(image, session, &rows)?;
    let place = *places.get(n).ok_or(Refusal::Row)?;
    if !may_write(image, session, tag(rows[place]))? {
        return Err(Refusal::RowWrite);
    }
    let row = [&rows[place][..4], payload].concat();
    rows[place] = &row;
    Ok(rows.concat())
}

/// "Masked reading takes a place, from 0, among all rows. It hands back the payload of the row if the
/// session may read it, and otherwise the caller's mask text."
pub fn masked<'a>(
    image: &Image,
    session: &Session,
    table: &'a [u8],
    width: usize,
    place: usize,
    mask: &'a [u8],
) -> Result<Masked<'a>, Refusal> {
    user_of(image, session)?;
    let rows = rows(table, width)?;
    let row = rows.get(place).ok_or(Refusal::Row)?;
    if may_read(image, session, tag(row))? {
        return Ok(Masked::Payload(&row[4..]));
    }
    Ok(Masked::Mask(mask))
}

/// "A table is a lent run of rows of one width, 5 to 512."
pub fn rows(table: &[u8], width: usize) -> Result<Vec<&[u8]>, Refusal> {
    if !(5..=512).contains(&width) || !table.len().is_multiple_of(width) {
        return Err(Refusal::Width);
    }
    Ok(table.chunks(width).collect())
}

/// "The tag is the first 4 bytes."
pub fn tag(row: &[u8]) -> u32 {
    u32_at(row, 0) as u32
}

/// The places of the rows that the session may read. A verdict is asked of a tag, so rows with one tag
/// share it.
fn readable(image: &Image, session: &Session, rows: &[&[u8]]) -> Result<Vec<usize>, Refusal> {
    let tags: BTreeSet<u32> = rows.iter().map(|row| tag(row)).collect();
    let mut verdicts = BTreeMap::new();
    for tag in tags {
        verdicts.insert(tag, may_read(image, session, tag)?);
    }
    let is_readable = |&place: &usize| verdicts[&tag(rows[place])];
    Ok((0..rows.len()).filter(is_readable).collect())
}
