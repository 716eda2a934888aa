//! A policy as a value, and its image.

mod edition;
pub mod layout;
mod partners;
mod profile;
mod random;
mod sample;
mod set;
mod sizes;
mod trees;

pub use edition::Edition;
pub use partners::{partners, partners_table};
pub use profile::{Profile, Variant};
pub use random::{full, letters, random, random_with};
pub use sample::{label, sample};
pub use set::Set;
pub use sizes::Sizes;
pub use trees::Tree;

use layout::{seal, Shape, BLOCK, COMPONENTS};
use std::iter;

/// The privilege that edition 2 and the release profile have not.
pub const COMPACCESS: u8 = 4;

/// A level, a compartment or a group. Only a group may have a parent, by its place among groups.
#[derive(Clone, Debug)]
pub struct Component {
    pub name: String,
    pub number: u16,
    pub parent: Option<u16>,
}

#[derive(Clone, Debug)]
pub struct Label {
    pub tag: u32,
    pub level: u8,
    pub compartments: Set,
    pub groups: Set,
}

impl Label {
    /// The 48 bytes of the label in the C functions, which are those of its record in edition 2 without
    /// the tag.
    pub fn to_bytes(&self) -> [u8; 48] {
        let mut bytes = [0; 48];
        bytes[4] = self.level;
        bytes[8..16].copy_from_slice(&self.compartments.to_bytes()[..8]);
        bytes[16..].copy_from_slice(&self.groups.to_bytes());
        bytes
    }
}

#[derive(Clone, Debug)]
pub struct Levels {
    pub maximum: u8,
    pub minimum: u8,
    pub default: u8,
    pub row: u8,
}

/// A user's sets of compartments or of groups.
#[derive(Clone, Debug, Default)]
pub struct Rights {
    pub read: Set,
    pub write: Set,
    pub default: Set,
    pub row: Set,
}

#[derive(Clone, Debug)]
pub struct User {
    pub name: String,
    pub privileges: u8,
    pub levels: Levels,
    pub compartments: Rights,
    pub groups: Rights,
}

#[derive(Clone, Debug)]
pub struct Policy {
    pub edition: Edition,
    pub profile: Profile,
    pub levels: Vec<Component>,
    pub compartments: Vec<Component>,
    pub groups: Vec<Component>,
    pub labels: Vec<Label>,
    pub users: Vec<User>,
}

impl User {
    pub fn holds_compaccess(&self) -> bool {
        self.privileges & COMPACCESS != 0
    }
}

impl Policy {
    /// The same in an edition, which may have lower limits than the policy goes to, and not all privileges
    /// that its users hold.
    pub fn in_edition(self, edition: Edition) -> Policy {
        Policy { edition, ..self }
    }

    /// The same in a profile, some of whose rules it may break.
    pub fn in_profile(self, profile: Profile) -> Policy {
        Policy { profile, ..self }
    }

    pub fn variant(&self) -> Variant {
        self.edition.of(self.profile)
    }

    /// The places of the users who hold COMPACCESS.
    pub fn holders(&self) -> Vec<usize> {
        let places = 0..self.users.len();
        let holds = |&place: &usize| self.users[place].holds_compaccess();
        places.filter(holds).collect()
    }

    /// The same with these users as those who hold COMPACCESS.
    pub fn held_by(mut self, holders: &[usize]) -> Policy {
        for (place, user) in self.users.iter_mut().enumerate() {
            user.privileges &= !COMPACCESS;
            if holders.contains(&place) {
                user.privileges |= COMPACCESS;
            }
        }
        self
    }

    /// S with every group that has an ancestor in S: subgroups are added until none is left to add.
    pub fn below(&self, set: Set) -> Set {
        let mut found = set;
        loop {
            let before = found;
            for (place, group) in self.groups.iter().enumerate().take(Set::PLACES) {
                let is_under = |parent| found.has(usize::from(parent));
                if !found.has(place) && group.parent.is_some_and(is_under) {
                    found |= Set::of(place);
                }
            }
            if before == found {
                return found;
            }
        }
    }

    /// A group and its ancestors. The walk is cut after as many steps as there are groups, since a
    /// damaged policy may have a ring of parents.
    pub fn with_ancestors(&self, group: usize) -> Set {
        let parent = |&group: &usize| self.groups[group].parent.map(usize::from);
        let walk = iter::successors(Some(group), parent);
        walk.take(self.groups.len()).collect()
    }

    /// All compartments that there are.
    pub fn all_compartments(&self) -> Set {
        Set::first(self.compartments.len())
    }

    /// All groups that there are.
    pub fn all_groups(&self) -> Set {
        Set::first(self.groups.len())
    }

    /// How many components there are in all three classes.
    pub fn components(&self) -> usize {
        self.levels.len() + self.compartments.len() + self.groups.len()
    }
}

/// The policy's records: those of components, of labels and of users.
pub fn to_records(policy: &Policy) -> [Vec<Vec<u8>>; 3] {
    let edition = policy.edition;
    let labels = policy.labels.iter().map(|it| label_record(edition, it));
    let users = policy.users.iter().map(|it| user_record(edition, it));
    [component_records(policy), labels.collect(), users.collect()]
}

/// The policy's image. A policy that breaks a rule gives an image that breaks it.
pub fn to_image(policy: &Policy) -> Vec<u8> {
    let edition = policy.edition;
    let shapes = [&COMPONENTS, edition.labels(), edition.users()];
    let mut image = header(policy);
    for (shape, records) in shapes.into_iter().zip(to_records(policy)) {
        pack(&mut image, shape, records);
    }
    for block in 0..image.len() / BLOCK {
        let place = (block as u16).to_le_bytes();
        image[block * BLOCK + 2..][..2].copy_from_slice(&place);
        seal(&mut image, block);
    }
    image
}

fn header(policy: &Policy) -> Vec<u8> {
    let mut block = vec![0; BLOCK];
    block[0] = 80;
    block[4] = policy.edition.number();
    block[5] = policy.levels.len() as u8;
    block[6] = policy.compartments.len() as u8;
    put(
        &mut block[policy.edition.group_count()],
        policy.groups.len(),
    );
    put(&mut block[8..10], policy.users.len());
    put(&mut block[10..12], policy.labels.len());
    block[12] = policy.profile.number();
    block
}

/// Lays a number down in as many bytes as there are.
pub fn put(bytes: &mut [u8], number: usize) {
    let length = bytes.len();
    bytes.copy_from_slice(&number.to_le_bytes()[..length]);
}

fn pack(image: &mut Vec<u8>, shape: &Shape, records: Vec<Vec<u8>>) {
    for chunk in records.chunks(shape.in_block) {
        let mut block = vec![shape.kind, chunk.len() as u8, 0, 0];
        block.extend(chunk.concat());
        block.resize(BLOCK, 0);
        image.extend(block);
    }
}

fn component_records(policy: &Policy) -> Vec<Vec<u8>> {
    [&policy.levels, &policy.compartments, &policy.groups]
        .into_iter()
        .zip(1..)
        .flat_map(|(components, class)| {
            components
                .iter()
                .map(move |component| component_record(policy.edition, class, component))
        })
        .collect()
}

fn component_record(edition: Edition, class: u8, component: &Component) -> Vec<u8> {
    let mut record = vec![0; COMPONENTS.size];
    record[0] = class;
    record[1] = component.name.len() as u8;
    record[2..][..component.name.len()].copy_from_slice(component.name.as_bytes());
    put(&mut record[32..34], component.number.into());
    let parent = component.parent.map_or(edition.no_parent(), usize::from);
    put(&mut record[edition.parent()], parent);
    record
}

/// In edition 1 groups past the 64th have no place in a record.
fn label_record(edition: Edition, label: &Label) -> Vec<u8> {
    let mut record = label.to_bytes().to_vec();
    record[..4].copy_from_slice(&label.tag.to_le_bytes());
    record.truncate(edition.labels().size);
    record
}

pub fn user_record(edition: Edition, user: &User) -> Vec<u8> {
    let mut record = vec![0; edition.users().size];
    record[0] = user.name.len() as u8;
    record[1..][..user.name.len()].copy_from_slice(user.name.as_bytes());
    record[31] = user.privileges;
    let Levels {
        maximum,
        minimum,
        default,
        row,
    } = user.levels;
    record[32..36].copy_from_slice(&[maximum, minimum, default, row]);
    record[40..72].copy_from_slice(&rights(&user.compartments, 8));
    let groups = rights(&user.groups, edition.group_set());
    record[72..72 + groups.len()].copy_from_slice(&groups);
    record
}

/// The four sets, each in so many bytes.
fn rights(rights: &Rights, size: usize) -> Vec<u8> {
    [rights.read, rights.write, rights.default, rights.row]
        .map(|set| set.to_bytes()[..size].to_vec())
        .concat()
}
