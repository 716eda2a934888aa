//! Two labels: dominance under a policy, and merging.

use super::label::Label;
use super::policy::Policy;
use super::records::set_at;
use brawnesk_tests::ffi::LABEL;
use brawnesk_tests::model::Refusal;
use std::array::from_fn;

/// Of two labels, each of which is nothing where it names a group past the first 64.
pub fn dominates(policy: &Policy, labels: [Option<Label>; 2]) -> Result<bool, Refusal> {
    let known = labels.map(|label| label.filter(|label| policy.has(label)));
    let [Some(first), Some(second)] = known else {
        return Err(Refusal::Component);
    };
    if second.level > first.level || second.compartments & !first.compartments != 0 {
        return Ok(false);
    }
    if second.groups == 0 || second.groups & first.groups != 0 {
        return Ok(true);
    }
    let ancestors = &policy.ancestors;
    Ok(ancestors.meets_below(second.groups, first.groups, first.groups))
}

/// Merging is lent no image, so it takes the groups of either edition.
#[inline(always)]
pub fn merge(
    first: &[u8; LABEL],
    second: &[u8; LABEL],
    letters: &[u8],
    merged: &mut [u8; LABEL],
) -> Result<(), Refusal> {
    let &[level, compartments, groups] = letters else {
        return Err(Refusal::Letters);
    };
    let level = match level {
        b'H' => first[4].max(second[4]),
        b'L' => first[4].min(second[4]),
        _ => return Err(Refusal::Letters),
    };
    let [compartments] = merge_sets(compartments, words(first, 8), words(second, 8))?;
    let groups: [u64; 4] = merge_sets(groups, words(first, 16), words(second, 16))?;
    let level = u64::from(level) << 32;
    let [a, b, c, d] = groups;
    let parts = merged.as_chunks_mut().0.iter_mut();
    for (part, word) in parts.zip([level, compartments, a, b, c, d]) {
        *part = word.to_le_bytes();
    }
    Ok(())
}

/// A set of so many words.
#[inline(always)]
fn words<const COUNT: usize>(label: &[u8; LABEL], at: usize) -> [u64; COUNT] {
    from_fn(|word| set_at(label, at + 8 * word))
}

#[inline(always)]
fn merge_sets<const COUNT: usize>(
    letter: u8,
    first: [u64; COUNT],
    second: [u64; COUNT],
) -> Result<[u64; COUNT], Refusal> {
    match letter {
        b'U' => Ok(from_fn(|word| first[word] | second[word])),
        b'I' => Ok(from_fn(|word| first[word] & second[word])),
        b'M' => Ok(from_fn(|word| first[word] & !second[word])),
        b'N' => Ok([0; COUNT]),
        _ => Err(Refusal::Letters),
    }
}
