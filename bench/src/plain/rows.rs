//! A table's rows under a session: reading, also by a map, updating, masked reading. Who reads every row is handed the
//! whole table. For few rows each tag is sought in the image; for more the readable tags are found first.

use super::labels::tag_of;
use super::maps;
use super::readable::Readable;
use super::reader::Reader;
use super::sessions::Lent;
use super::verdicts::may_write;
use brawnesk_tests::model::Refusal;

const FEW: usize = 256;

/// So much of a whole table is copied at once: a copy of more is counted byte by byte.
const PART: usize = 1_024;

pub fn read(lent: &Lent, table: &[u8], width: usize, buffer: &mut [u8]) -> Result<usize, Refusal> {
    let count = rows(table, width)?;
    let reader = Reader::new(lent);
    if reader.reads_all {
        return hand_out(table, count, buffer);
    }
    if count < FEW {
        return copy(table, width, buffer, |tag| reader.may_read(tag));
    }
    let mut readable = Readable::NONE;
    add_readable(&mut readable, &reader);
    copy(table, width, buffer, |tag| readable.has(tag))
}

/// The same by a map, which is judged first.
pub fn read_mapped(
    lent: &Lent,
    table: &[u8],
    width: usize,
    map: &[u8],
    buffer: &mut [u8],
) -> Result<usize, Refusal> {
    let count = rows(table, width)?;
    let reader = Reader::new(lent);
    maps::judge(&reader, map)?;
    if reader.reads_all {
        return hand_out(table, count, buffer);
    }
    if count < FEW {
        return copy(table, width, buffer, |tag| reader.may_read(tag));
    }
    let mut readable = Readable::NONE;
    readable.add(&reader.labels, |place, _| maps::bit(map, place));
    copy(table, width, buffer, |tag| readable.has(tag))
}

pub fn update(
    lent: &Lent,
    table: &mut [u8],
    width: usize,
    n: usize,
    payload: &[u8],
) -> Result<(), Refusal> {
    let count = rows(table, width)?;
    if payload.len() != width - 4 {
        return Err(Refusal::Payload);
    }
    let reader = Reader::new(lent);
    let place = if reader.reads_all {
        Some(n).filter(|n| *n < count)
    } else if count.min(n) < FEW {
        nth(table, width, n, |tag| reader.may_read(tag))
    } else {
        let mut readable = Readable::NONE;
        add_readable(&mut readable, &reader);
        nth(table, width, n, |tag| readable.has(tag))
    };
    let place = place.ok_or(Refusal::Row)?;
    let row = &mut table[place * width..][..width];
    if !may_write(lent, tag_of(row)) {
        return Err(Refusal::RowWrite);
    }
    row[4..].copy_from_slice(payload);
    Ok(())
}

/// Whether the row at the place is handed back, and not the mask.
pub fn masked(lent: &Lent, table: &[u8], width: usize, place: usize) -> Result<bool, Refusal> {
    let count = rows(table, width)?;
    let row = Some(place).filter(|place| *place < count);
    let row = row.map(|place| &table[place * width..][..width]);
    Ok(Reader::new(lent).may_read(tag_of(row.ok_or(Refusal::Row)?)))
}

/// How many rows a table has.
fn rows(table: &[u8], width: usize) -> Result<usize, Refusal> {
    let holds = (5..=512).contains(&width) && table.len().is_multiple_of(width);
    holds.then(|| table.len() / width).ok_or(Refusal::Width)
}

fn add_readable(readable: &mut Readable, reader: &Reader) {
    readable.add(&reader.labels, |_, record| reader.reads(record));
}

/// All rows.
fn hand_out(table: &[u8], count: usize, buffer: &mut [u8]) -> Result<usize, Refusal> {
    let front = buffer.get_mut(..table.len()).ok_or(Refusal::Room)?;
    for (place, part) in front.chunks_mut(PART).zip(table.chunks(PART)) {
        place.copy_from_slice(part);
    }
    Ok(count)
}

/// Copies the readable rows to the front of the buffer and gives their count. Where the buffer is shorter than the
/// table they are counted first.
#[inline(always)]
fn copy(
    table: &[u8],
    width: usize,
    buffer: &mut [u8],
    is_readable: impl Fn(u32) -> bool,
) -> Result<usize, Refusal> {
    let readable = table
        .chunks_exact(width)
        .filter(|row| is_readable(tag_of(row)));
    if buffer.len() < table.len() && buffer.len() < readable.clone().count() * width {
        return Err(Refusal::Room);
    }
    Ok(match width {
        ..8 => put(readable, width, buffer, ends::<4>),
        8..16 => put(readable, width, buffer, ends::<8>),
        _ => put(readable, width, buffer, <[u8]>::copy_from_slice),
    })
}

/// Copies rows to the front of the buffer and gives their count.
#[inline(always)]
fn put<'a>(
    rows: impl Iterator<Item = &'a [u8]>,
    width: usize,
    buffer: &mut [u8],
    copy: impl Fn(&mut [u8], &[u8]),
) -> usize {
    let places = buffer.chunks_exact_mut(width);
    places
        .zip(rows)
        .map(|(place, row)| copy(place, row))
        .count()
}

/// A short row, as two words that may overlap.
#[inline(always)]
fn ends<const SIZE: usize>(place: &mut [u8], row: &[u8]) {
    let last = row.len() - SIZE;
    let (first, second): ([u8; SIZE], [u8; SIZE]) = (
        row[..SIZE].try_into().unwrap(),
        row[last..].try_into().unwrap(),
    );
    place[..SIZE].copy_from_slice(&first);
    place[last..].copy_from_slice(&second);
}

/// The place of the n-th readable row.
#[inline(always)]
fn nth(table: &[u8], width: usize, n: usize, is_readable: impl Fn(u32) -> bool) -> Option<usize> {
    let rows = table.chunks_exact(width).enumerate();
    let mut readable = rows.filter(|(_, row)| is_readable(tag_of(row)));
    readable.nth(n).map(|(place, _)| place)
}
