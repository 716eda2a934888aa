//! What a user's record gives to sessions and verdicts.

use super::groups::below;
use super::label::Label;
use super::layout::{sets_at, Image, COMPARTMENT_SET};
use super::places::Places;
use super::records::name_of;

/// The privileges that have an effect.
#[derive(Clone, Copy, Debug, PartialEq, Eq)]
pub enum Privilege {
    Read,
    Full,
    CompAccess,
}

const BITS: [(u8, Privilege); 3] = [
    (1, Privilege::Read),
    (2, Privilege::Full),
    (4, Privilege::CompAccess),
];

/// Compartments and groups that a user may read or write.
pub struct Rights {
    pub compartments: Places,
    pub groups: Places,
}

pub struct User {
    privileges: Vec<Privilege>,
    pub maximum: usize,
    pub minimum: usize,
    pub read: Rights,
    pub write: Rights,
    /// The label and the row label at which a session opens.
    pub default: Label,
    pub row: Label,
}

impl User {
    /// The user at a place, if there is one.
    pub fn at(image: &Image, place: usize) -> Option<User> {
        if place >= image.counts.users().count {
            return None;
        }
        let record = image.user(place);
        let level = |at: usize| usize::from(record[at]);
        let compartments = sets_at(record, 40, COMPARTMENT_SET);
        let groups = image.user_groups(record);
        let [read, write, default, row] = [0, 1, 2, 3].map(|at| Rights {
            compartments: compartments[at],
            groups: groups[at],
        });
        let label = |level, rights: Rights| Label {
            level,
            compartments: rights.compartments,
            groups: rights.groups,
        };
        let held = |&(bit, _): &(u8, Privilege)| record[31] / bit % 2 == 1;
        Some(User {
            privileges: BITS.into_iter().filter(held).map(|(_, it)| it).collect(),
            maximum: level(32),
            minimum: level(33),
            read,
            write,
            default: label(level(34), default),
            row: label(level(35), row),
        })
    }

    pub fn has(&self, privilege: Privilege) -> bool {
        self.privileges.contains(&privilege)
    }

    /// "The session's write compartments are its compartments that the user may write."
    pub fn write_compartments(&self, session: &Label) -> Places {
        session.compartments & self.write.compartments
    }

    /// "Its write groups are below(session groups) ∩ below(write groups)." The release profile has no use for
    /// them.
    pub fn write_groups(&self, image: &Image, session: &Label) -> Places {
        below(image, &session.groups) & below(image, &self.write.groups)
    }
}

/// The place of the user of a name, byte for byte.
pub fn place_of(image: &Image, name: &[u8]) -> Option<usize> {
    (0..image.counts.users().count).find(|&place| name_of(image.user(place), 0) == name)
}
