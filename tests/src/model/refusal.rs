//! The numbers that calls refuse with.

use super::counts::Kind;

/// What the calls refuse, with the values that belong to the number.
#[derive(Clone, Copy, Debug, PartialEq, Eq)]
pub enum Refusal {
    /// 1: length 0, not a multiple of 512, over 65,536.
    Length,
    /// 2: a block's check or place is wrong; the lowest such block.
    Block(usize),
    /// 31: the header, a length unfit for its counts, or a block's kind, record count or bytes
    /// outside records; and any image of edition 2 in a move up, and in what R-12 asks of edition 1. Of records
    /// to be written: an unknown edition or profile, a length that isn't whole records, or a count outside its
    /// limits.
    Layout,
    /// 32, 33, 34: a component, a label or a user is at fault; its block, and its place there.
    Record {
        kind: Kind,
        block: usize,
        record: usize,
    },
    /// 32, 33, 34 of records to be written: its place in what was lent.
    Lent { kind: Kind, place: usize },
    /// 35: a ring of parents; the lowest group whose parents never end.
    Ring(usize),
    /// 4: no user of that name.
    User,
    /// 5: a text isn't of the shape of label text.
    Text,
    /// 6: a name isn't in its class; its offset.
    NameUnknown(usize),
    /// 7: a name came before in its list; its offset.
    NameRepeated(usize),
    /// 8: a new label's level is not allowed.
    Level,
    /// 9: its compartments are not.
    Compartments,
    /// 10: its groups are not.
    Groups,
    /// 11: the row label would stand outside the new write sets or above the new level; in the release profile
    /// it would lack a group of the new label.
    RowLabel,
    /// 12: a width isn't 5..512, or the table's length isn't a multiple of it.
    Width,
    /// 13: the result is longer than its buffer.
    Room,
    /// 14: no row n.
    Row,
    /// 15: row n isn't writable.
    RowWrite,
    /// 16: a payload's length isn't width minus 4.
    Payload,
    /// 17: merge letters aren't three of those allowed.
    Letters,
    /// 18: a lent label, or a class and place, names a component that the policy lacks.
    Component,
    /// 19: a lent session breaks its rules for that image.
    Session,
    /// 20: a lent map isn't the one for that image and session, or not as long.
    Map,
    /// 36: a move up of an image with users who hold COMPACCESS; how many.
    Holders(usize),
    /// 37: a move up of over 800 labels or 32 users.
    Size,
}

impl Refusal {
    pub fn number(self) -> u32 {
        match self {
            Refusal::Length => 1,
            Refusal::Block(_) => 2,
            Refusal::Layout => 31,
            Refusal::Record { kind, .. } | Refusal::Lent { kind, .. } => match kind {
                Kind::Component => 32,
                Kind::Label => 33,
                Kind::User => 34,
            },
            Refusal::Ring(_) => 35,
            Refusal::User => 4,
            Refusal::Text => 5,
            Refusal::NameUnknown(_) => 6,
            Refusal::NameRepeated(_) => 7,
            Refusal::Level => 8,
            Refusal::Compartments => 9,
            Refusal::Groups => 10,
            Refusal::RowLabel => 11,
            Refusal::Width => 12,
            Refusal::Room => 13,
            Refusal::Row => 14,
            Refusal::RowWrite => 15,
            Refusal::Payload => 16,
            Refusal::Letters => 17,
            Refusal::Component => 18,
            Refusal::Session => 19,
            Refusal::Map => 20,
            Refusal::Holders(_) => 36,
            Refusal::Size => 37,
        }
    }

    /// The place in an answer of the C functions, which have one number for block and record.
    pub fn place(self) -> usize {
        match self {
            Refusal::Block(block) => block,
            Refusal::Record { block, record, .. } => block * 65_536 + record,
            Refusal::Lent { place, .. } => place,
            Refusal::Ring(group) => group,
            Refusal::NameUnknown(offset) | Refusal::NameRepeated(offset) => offset,
            Refusal::Holders(count) => count,
            _ => 0,
        }
    }
}
