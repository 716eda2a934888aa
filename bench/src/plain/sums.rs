//! The check of a block: two sums of its bytes 0..509, each mod 255.

use super::{Block, BLOCK};

/// For each of 16 columns a number, so that the compiler takes eight columns at once.
type Columns = [u16; 16];

/// Byte i counts 510 - i times in the second sum. In each half of the block it stands in row r and column j of 16, and
/// 510 - i is 16 (15 - r) + 15 - j, less one in the second half (mod 255). Not inlined, so that its share of the
/// instructions can be read.
#[inline(never)]
pub fn sums(block: &Block) -> [u8; 2] {
    let (first, second) = block.as_chunks().0.split_at(BLOCK / 32);
    let (a, above) = columns(first);
    let (a_second, above_second) = columns(second);
    let (mut once, mut often): (Columns, Columns) = ([0; 16], [0; 16]);
    for column in 0..16 {
        once[column] = a[column] + a_second[column];
        often[column] = 16 * folded(above[column] + above_second[column])
            + (15 - column as u16) * folded(once[column])
            + (16 * 255 - a_second[column]);
    }
    // The last two bytes counted once, and 0 and -1 times.
    let [x, y] = [block[510], block[511]].map(u32::from);
    let a = total(&once) - x - y;
    let b = total(&often) + y;
    [(a % 255) as u8, (b % 255) as u8]
}

/// Of 16 rows: the sums of the columns, and the sums with row r counted 15 - r times, at most 30,600.
#[inline(always)]
fn columns(rows: &[[u8; 16]]) -> (Columns, Columns) {
    let (mut sums, mut above) = ([0; 16], [0; 16]);
    for row in rows {
        for column in 0..16 {
            above[column] += sums[column];
            sums[column] += u16::from(row[column]);
        }
    }
    (sums, above)
}

/// The same number mod 255, below 511.
fn folded(number: u16) -> u16 {
    (number & 255) + (number >> 8)
}

/// Of numbers below 2^15.
fn total(columns: &Columns) -> u32 {
    let (left, right) = columns.split_at(8);
    let pairs = left.iter().zip(right);
    pairs.map(|(left, right)| u32::from(left + right)).sum()
}
