//! An image laid out from records: blocks, their heads, the bytes after the records, and checks.

use super::counts::{Counts, Run};
use super::layout::BLOCK;
use super::sums;

/// The image of so many records, which are lent as a list for each kind.
pub fn lay_out(counts: &Counts, lists: [&[u8]; 3]) -> Vec<u8> {
    let mut blocks = vec![header(counts)];
    for (run, list) in counts.runs().iter().zip(lists) {
        let in_block = run.records.in_block * run.records.size;
        blocks.extend(list.chunks(in_block).map(|records| block(run, records)));
    }
    for (place, block) in blocks.iter_mut().enumerate() {
        block[2..4].copy_from_slice(&two_bytes(place));
        let (a, b) = sums(block);
        block[510..].copy_from_slice(&[a, b]);
    }
    blocks.concat()
}

/// Block 0 without its check.
fn header(counts: &Counts) -> [u8; BLOCK] {
    let edition = counts.edition;
    let mut header = [0; BLOCK];
    header[0] = 80;
    header[4] = edition.number;
    header[5] = counts.levels as u8;
    header[6] = counts.compartments as u8;
    let groups = edition.group_count.clone();
    header[groups.clone()].copy_from_slice(&two_bytes(counts.groups)[..groups.len()]);
    header[8..10].copy_from_slice(&two_bytes(counts.users));
    header[10..12].copy_from_slice(&two_bytes(counts.labels));
    header[12] = counts.profile.number();
    header
}

/// A block without its place and its check.
fn block(run: &Run, records: &[u8]) -> [u8; BLOCK] {
    let mut block = [0; BLOCK];
    block[0] = run.kind.number();
    block[1] = (records.len() / run.records.size) as u8;
    block[4..4 + records.len()].copy_from_slice(records);
    block
}

/// A number below 65,536.
pub fn two_bytes(number: usize) -> [u8; 2] {
    (number as u16).to_le_bytes()
}
