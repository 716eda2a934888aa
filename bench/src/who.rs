//! Whose opened session a call on rows or on maps is lent, and the image's policy with that user in it.

use crate::images::Of;
use crate::rows::{reader, READ};
use brawnesk_tests::builder::{Levels, Policy, Profile, Rights, Set, User};

#[derive(Clone, Copy, PartialEq, Eq)]
pub enum Who {
    /// Of the users with neither READ nor FULL, the one whose session reads the most tags.
    Reader,
    /// The last user with READ.
    Seer,
    /// The last user, changed so that every label passes every test of reading, and none is decided by a
    /// privilege: no session's map costs more.
    Top,
}

impl Who {
    const NAMED: [(&'static str, Who); 2] = [("READ", Who::Seer), ("top", Who::Top)];

    fn named(name: &str) -> Option<Who> {
        let found = Who::NAMED.iter().find(|(known, _)| *known == name);
        found.map(|(_, who)| *who)
    }

    pub fn user(self, policy: &Policy) -> &User {
        let mut users = policy.users.iter().rev();
        let found = match self {
            Who::Reader => Some(reader(policy)),
            Who::Seer => users.find(|user| user.privileges & READ != 0),
            Who::Top => users.next(),
        };
        found.expect("there is such a user")
    }
}

/// An image, and whose session is lent with it.
#[derive(Clone, Copy)]
pub struct On {
    pub of: Of,
    pub who: Who,
}

impl On {
    pub const fn reader(of: Of) -> On {
        let who = Who::Reader;
        On { of, who }
    }

    /// By the image's name, with + and whose session it is behind it for another than the reader's.
    pub fn named(name: &str) -> Option<On> {
        let Some((image, who)) = name.split_once('+') else {
            return Of::named(name).map(On::reader);
        };
        Some(On {
            of: Of::named(image)?,
            who: Who::named(who)?,
        })
    }

    pub fn policy(self) -> Policy {
        let mut policy = self.of.policy();
        if self.who == Who::Top {
            raise_last(&mut policy);
        }
        policy
    }
}

/// Gives the last user no privileges, all levels and compartments, and groups by which each label is read:
/// all of them, in the release profile none.
fn raise_last(policy: &mut Policy) {
    let highest = (policy.levels.len() - 1) as u8;
    let compartments = policy.all_compartments();
    let groups = match policy.profile {
        Profile::Tree => policy.all_groups(),
        Profile::Release => Set::NONE,
    };
    let rights = |set: Set| Rights {
        read: set,
        write: set,
        default: set,
        row: Set::NONE,
    };
    let user = policy.users.last_mut().expect("there are users");
    user.privileges = 0;
    user.levels = Levels {
        maximum: highest,
        minimum: 0,
        default: highest,
        row: 0,
    };
    user.compartments = rights(compartments);
    user.groups = rights(groups);
}
