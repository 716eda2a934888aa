//! Parents of groups, and the set below(S).

use super::layout::Image;
use super::places::Places;
use super::profile::Profile;
use std::iter;

/// The parent of each group. One that is no group, and any in the release profile, is a fault of the group's
/// record; nothing is above it.
fn parents(image: &Image) -> Vec<Option<usize>> {
    let groups = image.counts.groups;
    let exists = |&place: &usize| place < groups && image.profile() == Profile::Tree;
    (0..groups)
        .map(|group| Some(image.parent(image.group(group))).filter(exists))
        .collect()
}

/// For each group those right under it.
pub fn subgroups(image: &Image) -> Vec<Vec<usize>> {
    let mut subgroups = vec![Vec::new(); image.counts.groups];
    for (group, parent) in parents(image).into_iter().enumerate() {
        if let Some(parent) = parent {
            subgroups[parent].push(group);
        }
    }
    subgroups
}

/// The groups from which following parents never reaches "none". A walk that ends meets no group twice,
/// so one that has come to more groups than there are never ends.
pub fn endless(image: &Image) -> Vec<usize> {
    let parents = parents(image);
    let is_endless = |&group: &usize| {
        let walk = iter::successors(Some(group), |&group| parents[group]);
        walk.take(parents.len() + 1).count() > parents.len()
    };
    (0..parents.len()).filter(is_endless).collect()
}

/// S with every group that has an ancestor, at any distance, in S. Places in S that are no groups are
/// left out.
pub fn below(image: &Image, set: &Places) -> Places {
    let mut found = Places::default();
    let mut waiting: Vec<usize> = set.iter().filter(|&it| it < image.counts.groups).collect();
    while let Some(group) = waiting.pop() {
        if found.insert(group) {
            waiting.extend(&image.subgroups[group]);
        }
    }
    found
}
