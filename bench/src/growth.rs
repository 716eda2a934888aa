//! How costs grow: calls on tables with fewer rows than 1 MiB holds, and on images that have less of one thing than
//! the largest, and as much of all else.

use crate::asked::Asked;
use crate::images::Of;
use crate::rows::reader;
use brawnesk_tests::builder::{Component, Edition, Label, Policy, Rights, Set, User};

#[derive(Clone, Copy, PartialEq, Eq)]
pub enum Thing {
    Labels,
    Users,
    /// Of the largest image of edition 1, whose groups are up to 6 deep.
    Groups,
    /// Of the largest image of edition 2 whose groups are one chain.
    Chain,
}

/// An image with so many of a thing.
#[derive(Clone, Copy, PartialEq, Eq)]
pub struct Part {
    thing: Thing,
    count: usize,
}

impl Part {
    const NAMED: [(&'static str, Thing); 4] = [
        ("labels", Thing::Labels),
        ("users", Thing::Users),
        ("groups", Thing::Groups),
        ("chain", Thing::Chain),
    ];

    /// By the thing's name, a dash and how many there are.
    pub fn named(name: &str) -> Option<Part> {
        let (thing, count) = name.rsplit_once('-')?;
        let (_, thing) = Part::NAMED.into_iter().find(|(known, _)| *known == thing)?;
        let count = count.parse().ok()?;
        let is_there = (1..=thing.most()).contains(&count);
        is_there.then_some(Part { thing, count })
    }

    pub fn edition(self) -> Edition {
        self.thing.whole().edition()
    }

    pub fn policy(self) -> Policy {
        let whole = self.thing.whole().policy();
        match self.thing {
            Thing::Labels => with_labels(whole, self.count),
            Thing::Users => with_users(whole, self.count),
            Thing::Groups | Thing::Chain => with_groups(whole, self.count),
        }
    }
}

impl Thing {
    /// The image that has the most.
    fn whole(self) -> Of {
        match self {
            Thing::Labels | Thing::Users | Thing::Groups => Of::Full,
            Thing::Chain => Of::ParentHigher,
        }
    }

    fn most(self) -> usize {
        let edition = self.whole().edition();
        match self {
            Thing::Labels => edition.most_labels(),
            Thing::Users => edition.most_users(),
            Thing::Groups | Thing::Chain => edition.most_groups(),
        }
    }
}

/// So many of the places below `all`, evenly apart.
fn spread(count: usize, all: usize) -> impl Iterator<Item = usize> {
    (0..count).map(move |n| n * all / count)
}

fn with_labels(policy: Policy, count: usize) -> Policy {
    let places = spread(count, policy.labels.len());
    let labels = places.map(|place| policy.labels[place].clone()).collect();
    Policy { labels, ..policy }
}

/// The reader, whose session reads the rows, is one of them.
fn with_users(policy: Policy, count: usize) -> Policy {
    let all = policy.users.len();
    let named = &reader(&policy).name;
    let first = policy.users.iter().position(|user| user.name == *named);
    let first = first.expect("the reader is a user");
    let mut places: Vec<usize> = spread(count, all)
        .map(|place| (first + place) % all)
        .collect();
    places.sort();
    let users = places.iter().map(|&place| policy.users[place].clone());
    Policy {
        users: users.collect(),
        ..policy
    }
}

/// Those with the fewest ancestors. A group's ancestors have fewer than it has, so they stay with it, and what lay
/// below a user's groups still does.
fn with_groups(policy: Policy, count: usize) -> Policy {
    let mut kept: Vec<usize> = (0..policy.groups.len()).collect();
    kept.sort_by_key(|&place| policy.with_ancestors(place).count());
    kept.truncate(count);
    kept.sort();
    let moved = |set: Set| -> Set { (0..count).filter(|&new| set.has(kept[new])).collect() };
    let place = |parent: u16| kept.binary_search(&parent.into()).expect("it is kept") as u16;
    let group = |&old: &usize| Component {
        parent: policy.groups[old].parent.map(place),
        ..policy.groups[old].clone()
    };
    let label = |label: &Label| Label {
        groups: moved(label.groups),
        ..label.clone()
    };
    let user = |user: &User| User {
        groups: Rights {
            read: moved(user.groups.read),
            write: moved(user.groups.write),
            default: moved(user.groups.default),
            row: moved(user.groups.row),
        },
        ..user.clone()
    };
    Policy {
        groups: kept.iter().map(group).collect(),
        labels: policy.labels.iter().map(label).collect(),
        users: policy.users.iter().map(user).collect(),
        ..policy
    }
}

/// What is counted of so many of a thing: a check, a verdict and a read, by their names.
pub struct Step {
    pub thing: &'static str,
    pub count: usize,
    pub calls: [String; 3],
}

impl Step {
    pub fn versions(&self) -> String {
        let asked = Asked::named(&self.calls[0]);
        asked.expect("its name is known").versions()
    }
}

/// An eighth, a quarter, a half and all of each.
const PARTS: [usize; 4] = [8, 4, 2, 1];
const MOST_ROWS: usize = (1 << 20) / 10;

pub fn steps() -> Vec<Step> {
    let calls = |read: String, on: &str| [format!("check@{on}"), format!("may-read@{on}"), read];
    let rows = PARTS.map(|part| MOST_ROWS / part).map(|count| Step {
        thing: "rows",
        count,
        calls: calls(format!("rows-{count}@full"), "full"),
    });
    let things = Part::NAMED.into_iter().flat_map(|(name, thing)| {
        PARTS.map(|part| thing.most() / part).map(|count| Step {
            thing: name,
            count,
            calls: calls(
                format!("rows-1000@{name}-{count}"),
                &format!("{name}-{count}"),
            ),
        })
    });
    rows.into_iter().chain(things).collect()
}

#[cfg(test)]
mod tests {
    use super::*;

    /// All images keep all rules, and all versions agree.
    #[test]
    fn versions_agree() {
        for step in steps() {
            for name in &step.calls {
                let asked = Asked::named(name).expect("its name is known");
                asked.agreed(&asked.scene());
            }
        }
    }

    #[test]
    fn images_have_so_many() {
        for (name, thing) in Part::NAMED {
            for count in PARTS.map(|part| thing.most() / part) {
                let part = Part::named(&format!("{name}-{count}"));
                let policy = part.expect("it is known").policy();
                let counts = [
                    &policy.labels.len(),
                    &policy.users.len(),
                    &policy.groups.len(),
                ];
                assert!(counts.contains(&&count), "{name}: {counts:?}");
            }
        }
        assert!(Part::named("users-97").is_none());
    }
}
