//! Damage to a block's kind, record count or bytes outside records (31 at that block).

use super::{Draft, Expected};
use crate::builder::layout::{seal, Run, BLOCK};
use crate::rng::Rng;

/// A byte of a block, and likely values for it.
type Byte = (usize, &'static [u8]);

const KIND: Byte = (0, &[0, 67, 76, 80, 85]);
const RECORDS: Byte = (1, &[0, 2, 3, 10, 12, 21]);

/// Any block but the header.
pub fn record_block(draft: &Draft, rng: &mut Rng) -> Option<usize> {
    (draft.blocks() > 1).then(|| rng.range(1, draft.blocks() - 1))
}

pub fn kind(draft: &mut Draft, rng: &mut Rng) -> Option<Expected> {
    let block = record_block(draft, rng)?;
    change(draft, rng, block, KIND)
}

pub fn records(draft: &mut Draft, rng: &mut Rng) -> Option<Expected> {
    let block = record_block(draft, rng)?;
    change(draft, rng, block, RECORDS)
}

/// Any of this file's damage that one block alone can have.
pub fn any_of(draft: &mut Draft, rng: &mut Rng, block: usize) -> Option<Expected> {
    match rng.index(3) {
        0 => change(draft, rng, block, KIND),
        1 => change(draft, rng, block, RECORDS),
        _ => after_records_of(draft, rng, block).or_else(|| change(draft, rng, block, KIND)),
    }
}

/// One of the likely values or any, but not the one that stands there.
fn change(
    draft: &mut Draft,
    rng: &mut Rng,
    block: usize,
    (byte, likely): Byte,
) -> Option<Expected> {
    let at = block * BLOCK + byte;
    let old = draft.get(at);
    let value = *rng.pick(likely);
    let value = if value == old {
        rng.byte_but(old)
    } else {
        value
    };
    draft.write(at, &[value]);
    Expected::layout(block)
}

/// Two blocks of different kinds change places; places and checks are mended.
pub fn kind_order(draft: &mut Draft, rng: &mut Rng) -> Option<Expected> {
    let (low, high) = (record_block(draft, rng)?, record_block(draft, rng)?);
    if low >= high || draft.get(low * BLOCK) == draft.get(high * BLOCK) {
        return None;
    }
    let (front, back) = draft.image.split_at_mut(high * BLOCK);
    let (first, second) = (&mut front[low * BLOCK..][..BLOCK], &mut back[..BLOCK]);
    first[..2].swap_with_slice(&mut second[..2]);
    first[4..].swap_with_slice(&mut second[4..]);
    seal(&mut draft.image, low);
    seal(&mut draft.image, high);
    Expected::layout(low)
}

/// The header counts one record more or less than there are, in as many blocks. With fewer groups
/// a parent might be missing, which counts for a component.
pub fn records_by_header(draft: &mut Draft, rng: &mut Rng) -> Option<Expected> {
    let policy = &draft.policy;
    let edition = policy.edition;
    let groups = edition.group_count();
    let [components, labels, users] = policy.runs();
    let (run, at, count, limit) = match rng.index(3) {
        0 => (
            components,
            groups.clone(),
            policy.groups.len(),
            edition.most_groups(),
        ),
        1 => (labels, 10..12, policy.labels.len(), edition.most_labels()),
        _ => (users, 8..10, policy.users.len(), edition.most_users()),
    };
    let is_less = at != groups && rng.once_in(2);
    let last = if run.blocks() > 0 { run.in_last() } else { 0 };
    let fits = if is_less {
        last > 1
    } else {
        last > 0 && last < run.shape.in_block
    };
    if !fits || !is_less && count == limit {
        return None;
    }
    let new = if is_less { count - 1 } else { count + 1 };
    draft.write_number(at, new);
    Expected::layout(run.first + run.blocks() - 1)
}

/// The last record of a full block moves to the front of the next, short one: all records are
/// there and in order, but not packed.
pub fn unpacked(draft: &mut Draft, rng: &mut Rng) -> Option<Expected> {
    let runs = draft.policy.runs();
    let run: &Run = rng.pick(&runs);
    let (blocks, size, in_block) = (run.blocks(), run.shape.size, run.shape.in_block);
    if blocks < 2 || run.in_last() == in_block {
        return None;
    }
    let last = (run.first + blocks - 1) * BLOCK;
    let from = last - BLOCK + 4 + (in_block - 1) * size;
    let record = draft.image.get(from..from + size)?.to_vec();
    let moved = draft
        .image
        .get(last + 4..last + 4 + run.in_last() * size)?
        .to_vec();
    draft.put(from, &vec![0; size]);
    draft.write(last - BLOCK + 1, &[in_block as u8 - 1]);
    draft.put(last + 4, &[record, moved].concat());
    draft.write(last + 1, &[run.in_last() as u8 + 1]);
    Expected::layout(run.first + blocks - 2)
}

/// A byte that isn't zero after the records, in an unused slot or behind the last slot.
pub fn after_records(draft: &mut Draft, rng: &mut Rng) -> Option<Expected> {
    let block = record_block(draft, rng)?;
    after_records_of(draft, rng, block)
}

fn after_records_of(draft: &mut Draft, rng: &mut Rng, block: usize) -> Option<Expected> {
    let runs = draft.policy.runs();
    let run = runs
        .iter()
        .rfind(|run| run.first <= block && run.count > 0)?;
    let records = usize::from(draft.get(block * BLOCK + 1));
    let end = 4 + records * run.shape.size;
    if end > 509 {
        return None;
    }
    let at = rng.with_ends(end, 509);
    let value = rng.nonzero();
    draft.write(block * BLOCK + at, &[value]);
    Expected::layout(block)
}
