//! Refusals.

use crate::messages;
use core::error::Error;
use core::fmt::{self, Display, Formatter};

/// Why a call was not done: a case for each number that the C header lists, with what is returned
/// beside the number, and one case for any other number. 32 to 34 have a second case each, of the records
/// that [`write()`](crate::write()) is lent: these are told by their place, without a block.
///
/// ```
/// use brawnesk::{Image, Refusal};
///
/// let mut bytes = std::fs::read("../../sample/cooperative.img")?;
/// bytes[1_024 + 4 + 5] = 255; // unused; in a block's check 255 counts as 0
/// let refusal = Image::new(&bytes).check().unwrap_err();
/// assert_eq!(refusal, Refusal::LabelRecord { block: 2, record: 0 });
/// assert_eq!(
///     refusal.to_string(),
///     "refused 33 at block 2 record 0: the label's tag, level, compartments, groups or unused \
///      bytes are wrong, or its tag does not rise",
/// );
/// # Ok::<(), std::io::Error>(())
/// ```
#[derive(Clone, Copy, Debug, PartialEq, Eq, Hash)]
#[non_exhaustive]
pub enum Refusal {
    /// 1: the image's length is 0, not a multiple of 512, or over 65,536.
    ImageLength,
    /// 2: a block's check or place is wrong; the lowest such block.
    BlockCheck(u32),
    /// 4: no user of that name.
    NoUser,
    /// 5: the text does not have the shape of a label's text.
    TextShape,
    /// 6: a name is not in its class; the name's offset in the text.
    UnknownName(u32),
    /// 7: a name came before in its list; the name's offset in the text.
    RepeatedName(u32),
    /// 8: the label's level is not allowed.
    LevelNotAllowed,
    /// 9: the label's compartments are not allowed.
    CompartmentsNotAllowed,
    /// 10: the label's groups are not allowed.
    GroupsNotAllowed,
    /// 11: the row label would stand outside the new write sets or above the new level; in a release image it
    /// would lack a group of the new label.
    RowLabelOutside,
    /// 12: the width is not 5 to 512, or the table's length is not a multiple of it.
    TableShape,
    /// 13: the result is longer than the buffer lent for it.
    Room,
    /// 14: no row n.
    NoRow,
    /// 15: row n is not writable.
    RowNotWritable,
    /// 16: the payload's length is not the width minus 4.
    PayloadLength,
    /// 17: the merge letters are not three of those allowed.
    MergeLetters,
    /// 18: a lent label, or a class and place, names a component that the policy lacks.
    NoComponent,
    /// 19: a lent session breaks its rules for that image.
    SessionRules,
    /// 20: a lent map is not that of the image and session.
    WrongMap,
    /// 31: the header, a length unfit for its counts, or a block's kind, record count or bytes
    /// outside records; of records to be written an unknown edition or profile, a length that is not whole
    /// records, or a count outside its limits.
    ImageLayout,
    /// 32: a component record is at fault.
    ComponentRecord {
        /// Its block, from 0.
        block: u16,
        /// Its place in the block, from 0.
        record: u16,
    },
    /// 33: a label record is at fault.
    LabelRecord {
        /// Its block, from 0.
        block: u16,
        /// Its place in the block, from 0.
        record: u16,
    },
    /// 34: a user record is at fault.
    UserRecord {
        /// Its block, from 0.
        block: u16,
        /// Its place in the block, from 0.
        record: u16,
    },
    /// 32 of records to be written: the component record at that place of its slice, from 0.
    LentComponent(u32),
    /// 33 of records to be written: the label record at that place of its slice, from 0.
    LentLabel(u32),
    /// 34 of records to be written: the user record at that place of its slice, from 0.
    LentUser(u32),
    /// 35: the parents of a group never end; the lowest such group's place.
    ParentRing(u32),
    /// 36: users of the image to be moved up hold COMPACCESS; how many.
    CompaccessHolders(u32),
    /// 37: the image to be moved up has over 800 labels or 32 users.
    MoveLimits,
    /// A number that this crate does not know: it was made for another version of the library.
    /// [`Refusal::new`] and [`decode`](crate::decode) give it for no number above.
    Unknown {
        /// The number.
        number: u32,
        /// The place of the answer, whatever it means.
        place: u32,
    },
}

impl Refusal {
    /// The refusal of that number, with the place of a C answer. A number that returns nothing else
    /// has no use for the place. 32, 33 and 34 have block * 65,536 + record there.
    ///
    /// ```
    /// # use brawnesk::Refusal;
    /// assert_eq!(Refusal::new(13, 0), Refusal::Room);
    /// assert_eq!(Refusal::new(33, 2 * 65_536 + 1), Refusal::LabelRecord { block: 2, record: 1 });
    /// assert_eq!(Refusal::new(99, 5), Refusal::Unknown { number: 99, place: 5 });
    /// ```
    pub fn new(number: u32, place: u32) -> Refusal {
        let (block, record) = ((place >> 16) as u16, place as u16);
        match number {
            1 => Refusal::ImageLength,
            2 => Refusal::BlockCheck(place),
            4 => Refusal::NoUser,
            5 => Refusal::TextShape,
            6 => Refusal::UnknownName(place),
            7 => Refusal::RepeatedName(place),
            8 => Refusal::LevelNotAllowed,
            9 => Refusal::CompartmentsNotAllowed,
            10 => Refusal::GroupsNotAllowed,
            11 => Refusal::RowLabelOutside,
            12 => Refusal::TableShape,
            13 => Refusal::Room,
            14 => Refusal::NoRow,
            15 => Refusal::RowNotWritable,
            16 => Refusal::PayloadLength,
            17 => Refusal::MergeLetters,
            18 => Refusal::NoComponent,
            19 => Refusal::SessionRules,
            20 => Refusal::WrongMap,
            31 => Refusal::ImageLayout,
            32 => Refusal::ComponentRecord { block, record },
            33 => Refusal::LabelRecord { block, record },
            34 => Refusal::UserRecord { block, record },
            35 => Refusal::ParentRing(place),
            36 => Refusal::CompaccessHolders(place),
            37 => Refusal::MoveLimits,
            _ => Refusal::Unknown { number, place },
        }
    }

    /// The number.
    ///
    /// ```
    /// # use brawnesk::Refusal;
    /// assert_eq!(Refusal::Room.number(), 13);
    /// ```
    pub fn number(self) -> u32 {
        match self {
            Refusal::ImageLength => 1,
            Refusal::BlockCheck(_) => 2,
            Refusal::NoUser => 4,
            Refusal::TextShape => 5,
            Refusal::UnknownName(_) => 6,
            Refusal::RepeatedName(_) => 7,
            Refusal::LevelNotAllowed => 8,
            Refusal::CompartmentsNotAllowed => 9,
            Refusal::GroupsNotAllowed => 10,
            Refusal::RowLabelOutside => 11,
            Refusal::TableShape => 12,
            Refusal::Room => 13,
            Refusal::NoRow => 14,
            Refusal::RowNotWritable => 15,
            Refusal::PayloadLength => 16,
            Refusal::MergeLetters => 17,
            Refusal::NoComponent => 18,
            Refusal::SessionRules => 19,
            Refusal::WrongMap => 20,
            Refusal::ImageLayout => 31,
            Refusal::ComponentRecord { .. } | Refusal::LentComponent(_) => 32,
            Refusal::LabelRecord { .. } | Refusal::LentLabel(_) => 33,
            Refusal::UserRecord { .. } | Refusal::LentUser(_) => 34,
            Refusal::ParentRing(_) => 35,
            Refusal::CompaccessHolders(_) => 36,
            Refusal::MoveLimits => 37,
            Refusal::Unknown { number, .. } => number,
        }
    }

    /// What is wrong, in the words that the C function `brawnesk_message` has for the number.
    ///
    /// ```
    /// # use brawnesk::Refusal;
    /// assert_eq!(Refusal::NoUser.message(), "no user has that name");
    /// assert_eq!(Refusal::new(99, 0).message(), "a refusal that this program does not know");
    /// ```
    pub fn message(self) -> &'static str {
        messages::message(self.number())
    }

    /// The place of a C answer, where the number has one: a block, an offset, a group, how many users, or
    /// block * 65,536 + record, of records to be written the record's place. That of an unknown number is as
    /// it came.
    ///
    /// ```
    /// # use brawnesk::Refusal;
    /// assert_eq!(Refusal::UnknownName(5).place(), Some(5));
    /// assert_eq!(Refusal::LabelRecord { block: 2, record: 1 }.place(), Some(2 * 65_536 + 1));
    /// assert_eq!(Refusal::Room.place(), None);
    /// ```
    pub fn place(self) -> Option<u32> {
        match self {
            Refusal::BlockCheck(place)
            | Refusal::UnknownName(place)
            | Refusal::RepeatedName(place)
            | Refusal::LentComponent(place)
            | Refusal::LentLabel(place)
            | Refusal::LentUser(place)
            | Refusal::ParentRing(place)
            | Refusal::CompaccessHolders(place)
            | Refusal::Unknown { place, .. } => Some(place),
            Refusal::ComponentRecord { block, record }
            | Refusal::LabelRecord { block, record }
            | Refusal::UserRecord { block, record } => {
                Some(u32::from(block) * 65_536 + u32::from(record))
            }
            _ => None,
        }
    }
}

/// As `refused 32 at block 1 record 0: `, or of records to be written `refused 32 at record 0: `, and what is
/// wrong.
impl Display for Refusal {
    fn fmt(&self, formatter: &mut Formatter) -> fmt::Result {
        write!(formatter, "refused {}", self.number())?;
        match self {
            Refusal::BlockCheck(block) => write!(formatter, " at block {block}")?,
            Refusal::UnknownName(offset) | Refusal::RepeatedName(offset) => {
                write!(formatter, " at offset {offset}")?
            }
            Refusal::ComponentRecord { block, record }
            | Refusal::LabelRecord { block, record }
            | Refusal::UserRecord { block, record } => {
                write!(formatter, " at block {block} record {record}")?
            }
            Refusal::LentComponent(place)
            | Refusal::LentLabel(place)
            | Refusal::LentUser(place) => write!(formatter, " at record {place}")?,
            Refusal::ParentRing(group) => write!(formatter, " at group {group}")?,
            Refusal::CompaccessHolders(users) => write!(formatter, " holders {users}")?,
            _ => (),
        }
        write!(formatter, ": {}", self.message())
    }
}

impl Error for Refusal {}
