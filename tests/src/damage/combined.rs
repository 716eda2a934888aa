//! Two faults in one image, of which request R-2 says which one is told. That one is done last,
//! unless a comment says otherwise.

use super::release::{group_parent, groups, groups_of, Containing};
use super::users::{compaccess, group, group_of, last_unused, Inclusion};
use super::{blocks, components, places, rings, Draft, Expected};
use crate::builder::layout::{RecordAt, Run};
use crate::builder::{Profile, COMPACCESS};
use crate::rng::Rng;

/// Kinds of records, by their place among a policy's runs.
pub type Which = usize;
pub const COMPONENTS: Which = 0;
pub const LABELS: Which = 1;
pub const USERS: Which = 2;

fn run(draft: &Draft, which: Which) -> Run {
    let mut runs = draft.policy.runs().into_iter();
    runs.nth(which).expect("there are three kinds")
}

fn any(draft: &Draft, rng: &mut Rng, which: Which) -> Option<RecordAt> {
    let run = run(draft, which);
    Some(run.at(places::any(&run, rng)?))
}

/// Breaks a rule that a record keeps by itself.
fn spoil(draft: &mut Draft, rng: &mut Rng, at: RecordAt) -> Option<Expected> {
    let unused = last_unused(draft.edition());
    let variant = draft.policy.variant();
    let (byte, value) = match at.kind {
        // A parent, whatever the component is.
        67 if variant.is_release() && rng.once_in(3) => (34, 0),
        67 => *rng.pick(&[(0, 0), (1, 31), (2, b'a'), (33, 255), (39, 1)]),
        76 => *rng.pick(&[(3, 255), (4, 255), (5, 1), (7, 1)]),
        _ if !variant.has_compaccess() && rng.once_in(2) => (31, COMPACCESS),
        _ => *rng.pick(&[(0, 0), (1, b'a'), (31, 128), (32, 255), (unused, 1)]),
    };
    draft.break_record(at, byte, &[value])
}

// "The lowest block decides among 31 to 34, in it 31 first, then the lowest record."

pub fn two_in_block(draft: &mut Draft, rng: &mut Rng, which: Which) -> Option<Expected> {
    let run = run(draft, which);
    let higher = places::any(&run, rng)?;
    let at = run.at(higher);
    let lower = higher - 1 - rng.place(0, at.record)?;
    spoil(draft, rng, at)?;
    spoil(draft, rng, run.at(lower))
}

pub fn two_blocks(draft: &mut Draft, rng: &mut Rng, which: Which) -> Option<Expected> {
    let run = run(draft, which);
    let in_block = run.shape.in_block;
    let higher = places::later(
        in_block - 1,
        run.count.saturating_sub(in_block - 1),
        in_block,
        rng,
    )?;
    let lower = rng.index(higher / in_block * in_block);
    spoil(draft, rng, run.at(higher))?;
    spoil(draft, rng, run.at(lower))
}

pub fn before_layout(draft: &mut Draft, rng: &mut Rng, which: Which) -> Option<Expected> {
    let at = any(draft, rng, which)?;
    let higher = rng.place(at.block + 1, draft.blocks())?;
    blocks::any_of(draft, rng, higher)?;
    spoil(draft, rng, at)
}

pub fn with_layout(draft: &mut Draft, rng: &mut Rng, which: Which) -> Option<Expected> {
    let at = any(draft, rng, which)?;
    spoil(draft, rng, at)?;
    blocks::any_of(draft, rng, at.block)
}

pub fn after_layout(draft: &mut Draft, rng: &mut Rng, which: Which) -> Option<Expected> {
    let at = any(draft, rng, which)?;
    let lower = rng.place(1, at.block)?;
    spoil(draft, rng, at)?;
    blocks::any_of(draft, rng, lower)
}

// "Of two that clash the later is at fault, but a component whose class isn't the one the counts
// put at its place is at fault itself."

pub fn class_and_clash(draft: &mut Draft, rng: &mut Rng) -> Option<Expected> {
    let (earlier, later) = components::pair(&draft.policy, rng, false)?;
    let (from, to) = (earlier.offset + 1, earlier.offset + 34);
    let name_and_number = draft.image.get(from..to)?.to_vec();
    draft.break_record(later, 1, &name_and_number)?;
    let class = draft.get(earlier.offset) % 3 + 1;
    draft.break_record(earlier, 0, &[class])
}

// "35 comes after all these."

pub fn record_and_ring(draft: &mut Draft, rng: &mut Rng, which: Which) -> Option<Expected> {
    let at = any(draft, rng, which)?;
    rings::any(draft, rng)?;
    spoil(draft, rng, at)
}

pub fn layout_and_ring(draft: &mut Draft, rng: &mut Rng) -> Option<Expected> {
    rings::any(draft, rng)?;
    let block = blocks::record_block(draft, rng)?;
    blocks::any_of(draft, rng, block)
}

/// A group whose parent is no group, beside a ring.
pub fn parent_missing_and_ring(draft: &mut Draft, rng: &mut Rng) -> Option<Expected> {
    let count = draft.policy.groups.len();
    let group = rng.place(0, count).filter(|_| count > 1)?;
    let on_ring = (group + rng.range(1, count - 1)) % count;
    draft.write_parent(draft.policy.group_at(on_ring), on_ring);
    let parent = components::parent_from(count, draft.edition(), rng);
    draft.break_parent(draft.policy.group_at(group), parent)
}

// "A user's below rules come last." So do those in their place in the release profile.

fn break_below(draft: &mut Draft, rng: &mut Rng) -> Option<Expected> {
    match draft.policy.profile {
        Profile::Tree => {
            let rule = *rng.pick(&Inclusion::ALL);
            group(draft, rng, rule)
        }
        Profile::Release => {
            let rule = *rng.pick(&Containing::ALL);
            groups(draft, rng, rule)
        }
    }
}

fn break_below_of(draft: &mut Draft, rng: &mut Rng, user: usize) -> Option<Expected> {
    match draft.policy.profile {
        Profile::Tree => {
            let rule = *rng.pick(&Inclusion::ALL);
            group_of(draft, rng, rule, user)
        }
        Profile::Release => {
            let rule = *rng.pick(&Containing::ALL);
            groups_of(draft, rng, rule, user)
        }
    }
}

/// In the release profile: a group with a parent, and a user's groups.
pub fn parent_and_below(draft: &mut Draft, rng: &mut Rng) -> Option<Expected> {
    break_below(draft, rng)?;
    group_parent(draft, rng)
}

/// A user who holds COMPACCESS, and a user's groups: a lower one's, the same one's or a higher one's.
pub fn holder_and_below(draft: &mut Draft, rng: &mut Rng) -> Option<Expected> {
    break_below(draft, rng)?;
    compaccess(draft, rng)
}

/// A group with a parent comes before a user who holds COMPACCESS.
pub fn parent_and_holder(draft: &mut Draft, rng: &mut Rng) -> Option<Expected> {
    any(draft, rng, USERS)?;
    let parent = group_parent(draft, rng)?;
    compaccess(draft, rng)?;
    Some(parent)
}

/// The ring is told, and done first: by it a group might come to lie below another.
pub fn ring_and_below(draft: &mut Draft, rng: &mut Rng) -> Option<Expected> {
    any(draft, rng, USERS)?;
    let ring = rings::any(draft, rng)?;
    break_below(draft, rng)?;
    Some(ring)
}

pub fn layout_and_below(draft: &mut Draft, rng: &mut Rng) -> Option<Expected> {
    break_below(draft, rng)?;
    let block = blocks::record_block(draft, rng)?;
    blocks::any_of(draft, rng, block)
}

pub fn label_and_below(draft: &mut Draft, rng: &mut Rng) -> Option<Expected> {
    let at = any(draft, rng, LABELS)?;
    break_below(draft, rng)?;
    spoil(draft, rng, at)
}

/// A lower user's groups and a higher user's own rule: the higher is told.
pub fn below_and_later_user(draft: &mut Draft, rng: &mut Rng) -> Option<Expected> {
    let [lower, higher] = two_users(draft, rng)?;
    break_below_of(draft, rng, lower)?;
    spoil(draft, rng, draft.policy.user_at(higher))
}

pub fn two_below(draft: &mut Draft, rng: &mut Rng) -> Option<Expected> {
    let [lower, higher] = two_users(draft, rng)?;
    break_below_of(draft, rng, higher)?;
    break_below_of(draft, rng, lower)
}

fn two_users(draft: &Draft, rng: &mut Rng) -> Option<[usize; 2]> {
    let users = run(draft, USERS);
    let higher = places::later(0, users.count, users.shape.in_block, rng)?;
    Some([rng.index(higher), higher])
}
