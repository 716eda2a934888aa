//! The profiles of an image, which byte 12 of its header tells: the one of document 01, and the one that request
//! R-10 of document 02 adds.

#[derive(Clone, Copy, Debug, PartialEq, Eq)]
pub enum Profile {
    /// Groups have parents.
    Tree,
    /// Release groups.
    Release,
}

impl Profile {
    /// "A header byte 12 of 1 chooses this profile (0 is the old one)." There are no others.
    pub fn of(number: u8) -> Option<Profile> {
        match number {
            0 => Some(Profile::Tree),
            1 => Some(Profile::Release),
            _ => None,
        }
    }

    /// Byte 12 of the header.
    pub fn number(self) -> u8 {
        match self {
            Profile::Tree => 0,
            Profile::Release => 1,
        }
    }

    /// The privilege bits that a user may hold: "COMPACCESS must be absent."
    pub fn privileges(self) -> u8 {
        match self {
            Profile::Tree => 127,
            Profile::Release => 127 - 4,
        }
    }
}
