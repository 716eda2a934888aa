//! Two labels: dominance under a policy, by requests of document 02, and merging, which is lent
//! no image. That what is read is dominated is for others to find out: nothing of reading is used here.

use super::label::Label;
use super::layout::Image;
use super::places::Places;
use super::profile::Profile;
use super::Refusal;
use std::iter;

/// "Label 1 dominates label 2: its level is at least as high, it has all compartments of 2", and its groups
/// dominate those of 2.
pub fn dominates(image: &Image, first: &Label, second: &Label) -> Result<bool, Refusal> {
    both_exist(image, first, second)?;
    let by_groups = match image.profile() {
        Profile::Tree => groups_dominate(image, &first.groups, &second.groups),
        Profile::Release => released_further(&first.groups, &second.groups),
    };
    Ok(first.level >= second.level
        && second.compartments.is_subset(&first.compartments)
        && by_groups)
}

/// 2 has no groups or one of them "lies in below(groups of label 1)".
fn groups_dominate(image: &Image, first: &Places, second: &Places) -> bool {
    let is_reached = |group| line(image, group).any(|it| first.contains(it));
    second.is_empty() || second.iter().any(is_reached)
}

/// "Dominance turns the group test round likewise": label 2 goes to every group that label 1 goes to.
fn released_further(first: &Places, second: &Places) -> bool {
    first.iter().all(|group| second.contains(group))
}

/// "Strictly: and the labels differ."
pub fn strictly_dominates(image: &Image, first: &Label, second: &Label) -> Result<bool, Refusal> {
    Ok(dominates(image, first, second)? && first != second)
}

/// 18: "a lent label .. names a component the policy lacks", either of the two. All 256 places of groups
/// are looked at.
fn both_exist(image: &Image, first: &Label, second: &Label) -> Result<(), Refusal> {
    let counts = &image.counts;
    let exists = |label: &Label| {
        label.level < counts.levels
            && label.compartments.all_below(counts.compartments)
            && label.groups.all_below(counts.groups)
    };
    let both = exists(first) && exists(second);
    both.then_some(()).ok_or(Refusal::Component)
}

/// A group that there is, its parent, the parent's parent and so on. In an accepted image that ends.
fn line<'a>(image: &'a Image, group: usize) -> impl Iterator<Item = usize> + 'a {
    let none = image.edition().no_parent;
    iter::successors(Some(group), move |&group| {
        let parent = image.parent(image.group(group));
        (parent != none).then_some(parent)
    })
}

/// "Merging takes three letters: level H or L; compartments and groups each U, I, M or N."
pub fn merge(first: &Label, second: &Label, letters: &[u8]) -> Result<Label, Refusal> {
    let &[level, compartments, groups] = letters else {
        return Err(Refusal::Letters);
    };
    Ok(Label {
        level: merged_level(level, first.level, second.level)?,
        compartments: merged_set(compartments, first.compartments, second.compartments)?,
        groups: merged_set(groups, first.groups, second.groups)?,
    })
}

/// Higher or lower.
fn merged_level(letter: u8, first: usize, second: usize) -> Result<usize, Refusal> {
    match letter {
        b'H' => Ok(first.max(second)),
        b'L' => Ok(first.min(second)),
        _ => Err(Refusal::Letters),
    }
}

/// Union, intersection, first without second, or none.
fn merged_set(letter: u8, first: Places, second: Places) -> Result<Places, Refusal> {
    match letter {
        b'U' => Ok(first | second),
        b'I' => Ok(first & second),
        b'M' => Ok(first - second),
        b'N' => Ok(Places::default()),
        _ => Err(Refusal::Letters),
    }
}
