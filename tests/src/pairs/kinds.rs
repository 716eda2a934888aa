//! Kinds of two labels that a policy has.

use crate::builder::{Label, Policy, Profile, Set};
use crate::rng::Rng;
use crate::walk::{label_at, one_of, Walk, LABEL_AT, ROW_AT};
use std::iter;
use std::ops::RangeInclusive;

#[derive(Clone, Copy, Debug, PartialEq, Eq)]
pub enum Kind {
    /// Of label records.
    Records,
    /// Of a session and of a label record.
    SessionAndRecord,
    Sessions,
    /// Any labels.
    Any,
    /// The second is the first after few changes.
    Near,
    /// A group of one label is the parent of a group of the other, and nothing else connects them.
    OneStep,
    /// The same with the parent's parent, and one step more.
    TwoSteps,
    ThreeSteps,
    /// The same with four steps or more.
    Far,
    /// One label has all groups of the other, often more.
    Released,
    /// One label has all groups of the other but one.
    OneLacking,
    /// One label has no groups.
    NoGroups,
}

impl Kind {
    /// Those of each profile. Without parents none are steps apart.
    pub fn of(profile: Profile) -> [Kind; 9] {
        let [one, two, three, four] = match profile {
            Profile::Tree => [Kind::OneStep, Kind::TwoSteps, Kind::ThreeSteps, Kind::Far],
            Profile::Release => [
                Kind::Released,
                Kind::Released,
                Kind::OneLacking,
                Kind::NoGroups,
            ],
        };
        [
            Kind::Records,
            Kind::SessionAndRecord,
            Kind::Sessions,
            Kind::Any,
            Kind::Near,
            one,
            two,
            three,
            four,
        ]
    }

    pub fn name(self) -> &'static str {
        match self {
            Kind::Records => "records",
            Kind::SessionAndRecord => "a session and a record",
            Kind::Sessions => "sessions",
            Kind::Any => "any",
            Kind::Near => "near",
            Kind::OneStep => "one step",
            Kind::TwoSteps => "two steps",
            Kind::ThreeSteps => "three steps",
            Kind::Far => "far",
            Kind::Released => "released",
            Kind::OneLacking => "one lacking",
            Kind::NoGroups => "no groups",
        }
    }

    /// A kind and labels of it. Kinds are tried until the policy has what one takes.
    pub fn any(walk: &mut Walk) -> (Kind, [Label; 2]) {
        loop {
            let kind = *walk.rng.pick(&Kind::of(walk.policy.profile));
            if let Some(labels) = kind.labels(walk) {
                return (kind, labels);
            }
        }
    }

    fn labels(self, walk: &mut Walk) -> Option<[Label; 2]> {
        match self {
            Kind::Records => Some([of_record(walk)?, of_record(walk)?]),
            Kind::SessionAndRecord => Some([of_session(walk)?, of_record(walk)?]),
            Kind::Sessions => Some([of_session(walk)?, of_session(walk)?]),
            Kind::Any => Some([any_label(walk), any_label(walk)]),
            Kind::Near => Some(near(walk)),
            Kind::OneStep => apart(1..=1, &walk.policy, &mut walk.rng),
            Kind::TwoSteps => apart(2..=2, &walk.policy, &mut walk.rng),
            Kind::ThreeSteps => apart(3..=3, &walk.policy, &mut walk.rng),
            Kind::Far => apart(4..=255, &walk.policy, &mut walk.rng),
            Kind::Released => Some(released(&walk.policy, &mut walk.rng)),
            Kind::OneLacking => one_lacking(&walk.policy, &mut walk.rng),
            Kind::NoGroups => Some(without_groups(&walk.policy, &mut walk.rng)),
        }
    }
}

fn of_record(walk: &mut Walk) -> Option<Label> {
    let place = walk.rng.place(0, walk.policy.labels.len())?;
    Some(walk.policy.labels[place].clone())
}

/// The session label or the row label of a session that was handed out.
fn of_session(walk: &mut Walk) -> Option<Label> {
    let place = walk.rng.place(0, walk.remembered().len())?;
    let at = *walk.rng.pick(&[LABEL_AT, LABEL_AT, ROW_AT]);
    Some(label_at(&walk.remembered()[place], at))
}

fn any_label(walk: &mut Walk) -> Label {
    let Walk { policy, rng, .. } = walk;
    Label {
        tag: 0,
        level: rng.index(policy.levels.len()) as u8,
        compartments: rng.subset(policy.all_compartments()),
        groups: rng.subset(policy.all_groups()),
    }
}

fn near(walk: &mut Walk) -> [Label; 2] {
    let label = match walk.rng.index(3) {
        0 => of_record(walk),
        1 => of_session(walk),
        _ => None,
    };
    let label = label.unwrap_or_else(|| any_label(walk));
    let mut other = label.clone();
    for _ in 0..walk.rng.range(0, 3) {
        change(&mut other, &walk.policy, &mut walk.rng);
    }
    let mut labels = [label, other];
    if walk.rng.once_in(2) {
        labels.reverse();
    }
    labels
}

/// One change: the level is another; sets lose places or win one; groups give way to one below them.
fn change(label: &mut Label, policy: &Policy, rng: &mut Rng) {
    let below = policy.below(label.groups) & !label.groups;
    match rng.index(8) {
        0 => label.level = rng.index(policy.levels.len()) as u8,
        1 => label.level = label.level.saturating_sub(1),
        2 => label.compartments = rng.subset(label.compartments),
        3 => label.compartments |= one_of(policy.all_compartments(), rng),
        4 => label.groups = rng.subset(label.groups),
        5 => label.groups |= one_of(policy.all_groups(), rng),
        _ if !below.is_empty() => label.groups = one_of(below, rng),
        _ => label.groups = one_of(policy.all_groups(), rng),
    }
}

/// Labels of which one has a group so many steps above a group of the other. Mostly these two groups
/// decide: no others connect the labels, level and compartments suffice, and the upper stands first.
/// Else the upper stands second, or level or compartments are any.
fn apart(steps: RangeInclusive<usize>, policy: &Policy, rng: &mut Rng) -> Option<[Label; 2]> {
    let lines = lines(steps, policy);
    let &(group, ancestor) = lines.get(rng.place(0, lines.len())?)?;
    let all = policy.all_groups();
    let over = Set::of(ancestor) | others(all & !policy.with_ancestors(group), rng);
    let mut labels = by_groups(policy, rng, over, |rng| {
        Set::of(group) | others(all & !policy.below(over), rng)
    });
    match rng.index(8) {
        0 => labels[1].level = rng.index(policy.levels.len()) as u8,
        1 => labels[1].compartments |= one_of(policy.all_compartments(), rng),
        2 | 3 => labels.reverse(),
        _ => {}
    }
    Some(labels)
}

/// Labels with groups, of which the first has at least the second's level and compartments.
fn by_groups(
    policy: &Policy,
    rng: &mut Rng,
    first: Set,
    second: impl Fn(&mut Rng) -> Set,
) -> [Label; 2] {
    let level = rng.index(policy.levels.len());
    let compartments = rng.subset(policy.all_compartments());
    let label = |level: usize, compartments, groups| Label {
        tag: 0,
        level: level as u8,
        compartments,
        groups,
    };
    [
        label(level, compartments, first),
        label(rng.range(0, level), rng.subset(compartments), second(rng)),
    ]
}

/// In the release profile the first dominates if the second has all its groups; else they stand the other way
/// round.
fn released(policy: &Policy, rng: &mut Rng) -> [Label; 2] {
    let all = policy.all_groups();
    let groups = rng.subset(all);
    let mut labels = by_groups(policy, rng, groups, |rng| groups | others(all, rng));
    if rng.once_in(3) {
        labels.reverse();
    }
    labels
}

/// The same but for one group that the second lacks. Without it the first would dominate.
fn one_lacking(policy: &Policy, rng: &mut Rng) -> Option<[Label; 2]> {
    let all = policy.all_groups();
    let lacking = Set::of(rng.place_in(all)?);
    let groups = rng.subset(all) | lacking;
    let mut labels = by_groups(policy, rng, groups, |rng| {
        (groups | others(all, rng)) & !lacking
    });
    if rng.once_in(3) {
        labels.reverse();
    }
    Some(labels)
}

/// In the release profile a label without groups is dominated only by such a label.
fn without_groups(policy: &Policy, rng: &mut Rng) -> [Label; 2] {
    let all = policy.all_groups();
    let mut labels = by_groups(policy, rng, Set::NONE, |rng| others(all, rng));
    if rng.once_in(2) {
        let [first, second] = &mut labels;
        std::mem::swap(&mut first.groups, &mut second.groups);
    }
    labels
}

/// Each group with its ancestors that are so many steps above it.
fn lines(steps: RangeInclusive<usize>, policy: &Policy) -> Vec<(usize, usize)> {
    let parent = |&group: &usize| policy.groups[group].parent.map(usize::from);
    let mut lines = Vec::new();
    for group in 0..policy.groups.len() {
        let line = iter::successors(Some(group), parent).enumerate();
        let found = line.filter(|(step, _)| steps.contains(step));
        lines.extend(found.map(|(_, ancestor)| (group, ancestor)));
    }
    lines
}

/// No others, or some of them.
fn others(set: Set, rng: &mut Rng) -> Set {
    match rng.once_in(2) {
        true => Set::NONE,
        false => rng.subset(set),
    }
}
