//! Label texts and labels for a policy, by seed: right ones, and ones that are wrong in every way that
//! the rules of label text name.

use crate::builder::{letters, random, Component, Edition, Label, Policy, Set, Sizes, Variant};
use crate::rng::Rng;
use crate::spelling::in_some_letters;

/// Mostly small, sometimes up to all limits of components. Label text asks nothing of users and
/// labels, so these are few.
pub fn policy(variant: impl Into<Variant>, rng: &mut Rng) -> Policy {
    let variant = variant.into();
    let mut sizes = match rng.index(40) {
        0 => Sizes::any(variant, rng),
        1 => Sizes::full(variant),
        2..=7 => Sizes::medium(variant, rng),
        _ => Sizes::small(variant, rng),
    };
    sizes.users = sizes.users.min(4);
    sizes.labels = sizes.labels.min(30);
    random(sizes, rng)
}

/// A policy of all limits whose names all have 30 bytes: its longest text has 3,998 bytes in edition 1
/// and 9,950 in edition 2.
pub fn longest_names(variant: impl Into<Variant>) -> Policy {
    let mut policy = random(Sizes::full(variant), &mut Rng::new(2));
    for class in [
        &mut policy.levels,
        &mut policy.compartments,
        &mut policy.groups,
    ] {
        for (place, component) in class.iter_mut().enumerate() {
            component.name = format!("{place:0>30}");
        }
    }
    policy
}

/// The names of a text by class.
struct Names {
    level: String,
    lists: [Vec<String>; 2],
}

impl Names {
    /// Of any label that the policy has.
    fn any(policy: &Policy, rng: &mut Rng) -> Names {
        let label = Label {
            tag: 0,
            level: rng.index(policy.levels.len()) as u8,
            compartments: rng.subset(policy.all_compartments()),
            groups: rng.subset(policy.all_groups()),
        };
        Names::printed(policy, &label)
    }

    /// Of a label, as far as the policy has it, in the order of printing.
    fn printed(policy: &Policy, label: &Label) -> Names {
        let list = |class: &[Component], set: Set| {
            let chosen = |&(place, _): &(usize, &Component)| set.has(place);
            let names = class.iter().enumerate().filter(chosen);
            names.map(|(_, component)| component.name.clone()).collect()
        };
        Names {
            level: policy.levels[usize::from(label.level)].name.clone(),
            lists: [
                list(&policy.compartments, label.compartments),
                list(&policy.groups, label.groups),
            ],
        }
    }

    fn text(&self) -> Vec<u8> {
        let [compartments, groups] = &self.lists;
        let text = match (compartments.is_empty(), groups.is_empty()) {
            (true, true) => self.level.clone(),
            (false, true) => format!("{}:{}", self.level, compartments.join(",")),
            _ => format!(
                "{}:{}:{}",
                self.level,
                compartments.join(","),
                groups.join(",")
            ),
        };
        text.into_bytes()
    }

    /// One change that leaves the shape as it is.
    fn change(&mut self, policy: &Policy, rng: &mut Rng) {
        match rng.index(8) {
            0..=2 => self.lists.iter_mut().for_each(|list| rng.shuffle(list)),
            3 => self.repeat(rng),
            4 => {
                let name = unknown(policy, rng);
                self.put(name, rng);
            }
            5 => self.put(letters(31, rng), rng),
            6 => {
                let classes = [&policy.levels, &policy.compartments, &policy.groups];
                let all = classes.into_iter().flatten();
                let names: Vec<&String> = all.map(|component| &component.name).collect();
                let name = rng.pick(&names).to_string();
                self.put(name, rng);
            }
            _ => self.level = unknown(policy, rng),
        }
    }

    /// A name of a list once more in the same list.
    fn repeat(&mut self, rng: &mut Rng) {
        let list = &mut self.lists[rng.index(2)];
        if !list.is_empty() {
            let name = rng.pick(list).clone();
            list.insert(rng.range(0, list.len()), name);
        }
    }

    /// A name as the level or anywhere in a list, whether or not it belongs there.
    fn put(&mut self, name: String, rng: &mut Rng) {
        match rng.index(9) {
            0 => self.level = name,
            class => {
                let list = &mut self.lists[class % 2];
                list.insert(rng.range(0, list.len()), name);
            }
        }
    }
}

/// Mostly a name that no class has: random letters, or a name cut short or made longer by one.
fn unknown(policy: &Policy, rng: &mut Rng) -> String {
    let classes = [&policy.levels, &policy.compartments, &policy.groups];
    let class = *rng.pick(&classes);
    if class.is_empty() || rng.once_in(3) {
        return letters(rng.range(1, 40), rng);
    }
    let name = &rng.pick(class).name;
    if name.len() > 1 && rng.once_in(2) {
        return name[..name.len() - 1].to_string();
    }
    format!("{name}{}", letters(1, rng))
}

/// A text for the policy, in some letters. All kinds come often, and several changes may meet in one text.
pub fn text(policy: &Policy, rng: &mut Rng) -> Vec<u8> {
    let text = in_capitals(policy, rng);
    in_some_letters(text, rng)
}

fn in_capitals(policy: &Policy, rng: &mut Rng) -> Vec<u8> {
    let mut names = Names::any(policy, rng);
    match rng.index(20) {
        0 => noise(rng),
        1 => long(names, policy.edition, rng),
        2..=4 => names.text(),
        5..=12 => {
            for _ in 0..rng.range(1, 3) {
                names.change(policy, rng);
            }
            names.text()
        }
        _ => {
            if rng.once_in(2) {
                names.change(policy, rng);
            }
            let mut text = names.text();
            change_bytes(&mut text, rng);
            text
        }
    }
}

/// The text of a label with its names in any order, in some letters; at times with one change, as in `text`.
pub fn text_of(policy: &Policy, label: &Label, rng: &mut Rng) -> Vec<u8> {
    let mut names = Names::printed(policy, label);
    names.lists.iter_mut().for_each(|list| rng.shuffle(list));
    if rng.once_in(8) {
        names.change(policy, rng);
    }
    let mut text = names.text();
    if rng.once_in(16) {
        change_bytes(&mut text, rng);
    }
    in_some_letters(text, rng)
}

/// Random bytes, or random bytes of the alphabet with many separators; at times none.
fn noise(rng: &mut Rng) -> Vec<u8> {
    let length = rng.range(0, 12);
    if rng.once_in(2) {
        return (0..length).map(|_| rng.byte()).collect();
    }
    (0..length).map(|_| *rng.pick(b"AB0_::,,")).collect()
}

/// One change that mostly breaks the shape.
fn change_bytes(text: &mut Vec<u8>, rng: &mut Rng) {
    let last = text.len() - 1;
    let at = rng.range(0, text.len());
    match rng.index(8) {
        0 => text.insert(at, b' '),
        1 => double_separator(text, rng),
        2 => text.push(*rng.pick(b":,")),
        3 => text.insert(0, *rng.pick(b":,")),
        4 => text.extend(b"::A:A".iter().skip(rng.index(3))),
        5 => drop(text.remove(at.min(last))),
        6 => text[at.min(last)] = rng.byte(),
        _ => text.insert(at, *rng.pick(b":,\0\n\x7f\x80/;@[`{-.+")),
    }
}

/// A separator once more beside itself, which also makes an empty part.
fn double_separator(text: &mut Vec<u8>, rng: &mut Rng) {
    let is_separator = |&at: &usize| matches!(text[at], b':' | b',');
    let separators: Vec<usize> = (0..text.len()).filter(is_separator).collect();
    if separators.is_empty() {
        return text.extend(b"::");
    }
    let at = *rng.pick(&separators);
    text.insert(at, text[at]);
}

/// A text of about as many bytes as it may have, from one less to two more; at times far longer, or
/// about as long as it may be in the other edition. It is filled up with one long name or with repeats of
/// a name. Mostly of the right shape, at times with a bad last byte.
fn long(names: Names, edition: Edition, rng: &mut Rng) -> Vec<u8> {
    let mut text = names.text();
    let longest = edition.longest_text();
    let length = match rng.index(8) {
        0 => rng.range(longest + 3, longest + 6_000),
        1 => edition.other().longest_text() + rng.index(4),
        _ => longest - 1 + rng.index(4),
    };
    let groups = &names.lists[1];
    let filler = match groups.is_empty() || rng.once_in(2) {
        true => "Z".to_string(),
        false => format!(",{}", rng.pick(groups)),
    };
    let missing = length.saturating_sub(text.len());
    text.extend(filler.bytes().cycle().take(missing));
    if let (true, Some(last)) = (rng.once_in(6), text.last_mut()) {
        *last = *rng.pick(b" ,:{");
    }
    text
}

/// The bytes of a label that the policy has. Bytes that are not looked at hold anything.
pub fn label(policy: &Policy, rng: &mut Rng) -> [u8; 48] {
    let mut bytes = [0; 48];
    for at in [0, 1, 2, 3, 5, 6, 7] {
        bytes[at] = rng.byte();
    }
    bytes[4] = rng.index(policy.levels.len()) as u8;
    let compartments = rng.subset(policy.all_compartments());
    bytes[8..16].copy_from_slice(&compartments.to_bytes()[..8]);
    let groups = rng.subset(policy.all_groups());
    bytes[16..].copy_from_slice(&groups.to_bytes());
    bytes
}

/// The bytes of a label with one place that the policy lacks, often the lowest such place.
pub fn label_past(policy: &Policy, rng: &mut Rng) -> [u8; 48] {
    let mut bytes = label(policy, rng);
    let counts = [policy.compartments.len(), policy.groups.len()];
    let past = |count: usize, end: usize, rng: &mut Rng| match rng.index(3) {
        0 => count,
        1 => end - 1,
        _ => rng.range(count, end - 1),
    };
    match rng.index(4) {
        0 => bytes[4] = past(policy.levels.len(), 256, rng) as u8,
        1 if counts[0] < 64 => add(&mut bytes[8..16], past(counts[0], 64, rng)),
        2 if counts[1] <= 64 => add(&mut bytes[16..], past(64, 256, rng)),
        2 | 3 if counts[1] < 256 => add(&mut bytes[16..], past(counts[1], 256, rng)),
        _ => bytes[4] = past(policy.levels.len(), 256, rng) as u8,
    }
    bytes
}

fn add(set: &mut [u8], place: usize) {
    set[place / 8] |= 1 << (place % 8);
}
