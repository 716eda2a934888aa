//! The profiles of an image (request R-10 of document 02), and what an image is of: an edition and a
//! profile.

use super::{partners, sample, Edition, Policy, COMPACCESS};

#[derive(Clone, Copy, Debug, PartialEq, Eq, PartialOrd, Ord)]
pub enum Profile {
    /// Groups have parents, and rights flow down from them.
    Tree,
    /// A row's groups are those that it may go to. Groups have no parents.
    Release,
}

impl Profile {
    pub const ALL: [Profile; 2] = [Profile::Tree, Profile::Release];

    /// Byte 12 of the header.
    pub fn number(self) -> u8 {
        match self {
            Profile::Tree => 0,
            Profile::Release => 1,
        }
    }

    pub fn other(self) -> Profile {
        match self {
            Profile::Tree => Profile::Release,
            Profile::Release => Profile::Tree,
        }
    }
}

#[derive(Clone, Copy, Debug, PartialEq, Eq, PartialOrd, Ord)]
pub struct Variant {
    pub edition: Edition,
    pub profile: Profile,
}

impl Variant {
    pub const ALL: [Variant; 4] = [
        Edition::One.tree(),
        Edition::Two.tree(),
        Edition::One.release(),
        Edition::Two.release(),
    ];

    pub fn is_release(self) -> bool {
        self.profile == Profile::Release
    }

    /// The privileges that a user may hold: COMPACCESS is neither in edition 2 nor in the release profile.
    pub fn privileges(self) -> u8 {
        match self.profile {
            Profile::Tree => self.edition.privileges(),
            Profile::Release => self.edition.privileges() & !COMPACCESS,
        }
    }

    pub fn has_compaccess(self) -> bool {
        self.privileges() & COMPACCESS != 0
    }

    /// The sample of the profile, in the edition.
    pub fn sample(self) -> Policy {
        let sample = match self.profile {
            Profile::Tree => sample(),
            Profile::Release => partners(),
        };
        sample.in_edition(self.edition)
    }

    /// How many different bytes of privileges there are.
    pub fn privilege_bytes(self) -> usize {
        1 << self.privileges().count_ones()
    }
}

impl Edition {
    pub const fn tree(self) -> Variant {
        self.of(Profile::Tree)
    }

    pub const fn release(self) -> Variant {
        self.of(Profile::Release)
    }

    pub const fn of(self, profile: Profile) -> Variant {
        Variant {
            edition: self,
            profile,
        }
    }
}

/// Of the profile that there was first.
impl From<Edition> for Variant {
    fn from(edition: Edition) -> Variant {
        edition.tree()
    }
}
