//! Wrong writers, each the model but for one thing. Cases and answers by hand have to tell each of them.

use super::{by_model, Lists};
use crate::builder::layout::seal;
use crate::compare::{expected, written};
use crate::ffi::Answer;
use crate::model::{laid_out, write, write_faults, Kind, Refusal, WriteFault};

#[derive(Clone, Copy, Debug, PartialEq, Eq)]
pub enum Wrong {
    /// 13 comes before what is wrong with records.
    RoomFirst,
    /// Labels come before components.
    LabelsFirst,
    /// Users come before labels.
    UsersBeforeLabels,
    /// 35 comes right after components.
    RingAfterComponents,
    /// 35 comes before users.
    RingBeforeUsers,
    /// The rules by below come in order with a user's others.
    GroupsInOrder,
    /// The rules by below come before 35.
    GroupsBeforeRing,
    /// The highest record decides.
    HighestRecord,
    /// The highest group is told.
    HighestGroup,
    /// Of two labels that clash the earlier is at fault.
    EarlierLabel,
    /// The lengths and limits of users are judged after components and labels.
    UsersCountedLate,
    /// An unknown class is 31.
    UnknownClassAsCounts,
    /// Components past the counts are left out.
    UnknownClassesLeftOut,
    /// A record is told by block and record.
    ToldByBlock,
    /// A refusal writes what has room.
    WritesOnRefusal,
    /// Later bytes are cleared.
    LaterBytesCleared,
    /// The profile isn't written.
    ProfileLost,
}

impl Wrong {
    pub const ALL: [Wrong; 17] = [
        Wrong::RoomFirst,
        Wrong::LabelsFirst,
        Wrong::UsersBeforeLabels,
        Wrong::RingAfterComponents,
        Wrong::RingBeforeUsers,
        Wrong::GroupsInOrder,
        Wrong::GroupsBeforeRing,
        Wrong::HighestRecord,
        Wrong::HighestGroup,
        Wrong::EarlierLabel,
        Wrong::UsersCountedLate,
        Wrong::UnknownClassAsCounts,
        Wrong::UnknownClassesLeftOut,
        Wrong::ToldByBlock,
        Wrong::WritesOnRefusal,
        Wrong::LaterBytesCleared,
        Wrong::ProfileLost,
    ];

    /// Whether only images with parents tell it.
    pub fn is_of_trees(self) -> bool {
        matches!(
            self,
            Wrong::RingAfterComponents
                | Wrong::RingBeforeUsers
                | Wrong::GroupsBeforeRing
                | Wrong::HighestGroup
        )
    }

    /// Its answer, after which the buffer is as it leaves it.
    pub fn ask(self, lists: &Lists, buffer: &mut [u8]) -> Answer {
        let (answer, after) = match self {
            Wrong::RoomFirst => room_first(lists, buffer),
            Wrong::UsersCountedLate => users_counted_late(lists, buffer),
            Wrong::UnknownClassAsCounts => unknown_class_as_counts(lists, buffer),
            Wrong::UnknownClassesLeftOut => by_model(&without_unknown(lists), buffer),
            Wrong::ToldByBlock => told_by_block(lists, buffer),
            Wrong::WritesOnRefusal => writes_on_refusal(lists, buffer),
            Wrong::LaterBytesCleared => later_bytes_cleared(lists, buffer),
            Wrong::ProfileLost => profile_lost(lists, buffer),
            Wrong::EarlierLabel => earlier_label(lists, buffer),
            _ => written(self.by_order(lists, buffer.len()), buffer),
        };
        buffer.copy_from_slice(&after);
        answer
    }

    /// The fault of the lowest key in another order.
    fn by_order(self, lists: &Lists, room: usize) -> Result<Vec<u8>, Refusal> {
        let faults = write_faults(&lists.lent()).into_iter();
        match faults.min_by_key(|fault| self.key(fault)) {
            Some(fault) => Err(fault.refusal()),
            None => write(&lists.lent(), room),
        }
    }

    /// 0 for 31, 2, 4 and 6 for the kinds of records, 8 for 35 and 10 for the rules that come last; but in one thing
    /// wrong.
    fn key(self, fault: &WriteFault) -> (usize, usize) {
        let (stage, place) = match *fault {
            WriteFault::Counts => (0, 0),
            WriteFault::Record { kind, place } => (2 + 2 * kind as usize, place),
            WriteFault::Ring { group } => (8, group),
            WriteFault::Below { user } => (10, user),
        };
        match (self, stage) {
            (Wrong::LabelsFirst, 4) => (1, place),
            (Wrong::UsersBeforeLabels, 6) => (3, place),
            (Wrong::RingAfterComponents, 8) => (3, place),
            (Wrong::RingBeforeUsers, 8) => (5, place),
            (Wrong::GroupsInOrder, 10) => (6, place),
            (Wrong::GroupsBeforeRing, 10) => (7, place),
            (Wrong::HighestRecord, 2 | 4 | 6 | 10) => (stage, usize::MAX - place),
            (Wrong::HighestGroup, 8) => (stage, usize::MAX - place),
            _ => (stage, place),
        }
    }
}

fn room_first(lists: &Lists, buffer: &[u8]) -> (Answer, Vec<u8>) {
    match laid_out(&lists.lent()) {
        Some(image) if image.len() > buffer.len() => written(Err(Refusal::Room), buffer),
        _ => by_model(lists, buffer),
    }
}

/// Whole users, and no more than there may be, are judged with the rest.
fn users_counted_late(lists: &Lists, buffer: &[u8]) -> (Answer, Vec<u8>) {
    let mut cut = lists.clone();
    let most = if lists.edition == 1 { 96 } else { 32 };
    let whole = lists.count(Kind::User).min(most) * lists.size(Kind::User);
    cut.list(Kind::User).truncate(whole);
    let (answer, after) = by_model(&cut, buffer);
    match answer {
        Answer::Refused {
            number: 31..=33, ..
        } => (answer, after),
        _ => by_model(lists, buffer),
    }
}

fn is_known(record: &[u8]) -> bool {
    (1..=3).contains(&record[0])
}

fn unknown_class_as_counts(lists: &Lists, buffer: &[u8]) -> (Answer, Vec<u8>) {
    match lists.lists[0].chunks(40).all(is_known) {
        true => by_model(lists, buffer),
        false => written(Err(Refusal::Layout), buffer),
    }
}

fn without_unknown(lists: &Lists) -> Lists {
    let mut known = lists.clone();
    let components = lists.lists[0].chunks(40).filter(|it| is_known(it));
    known.lists[0] = components.collect::<Vec<_>>().concat();
    known
}

fn told_by_block(lists: &Lists, buffer: &[u8]) -> (Answer, Vec<u8>) {
    let (answer, after) = by_model(lists, buffer);
    let answer = match answer {
        Answer::Refused { number: 32, place } => {
            let place = (1 + place / 12) * 65_536 + place % 12;
            Answer::Refused { number: 32, place }
        }
        answer => answer,
    };
    (answer, after)
}

fn writes_on_refusal(lists: &Lists, buffer: &[u8]) -> (Answer, Vec<u8>) {
    let (answer, mut after) = by_model(lists, buffer);
    if let (Answer::Refused { .. }, Some(image)) = (answer, laid_out(&lists.lent())) {
        let room = image.len().min(after.len());
        after[..room].copy_from_slice(&image[..room]);
    }
    (answer, after)
}

fn later_bytes_cleared(lists: &Lists, buffer: &[u8]) -> (Answer, Vec<u8>) {
    let (answer, mut after) = by_model(lists, buffer);
    if let Answer::Done(length) = answer {
        after[length as usize..].fill(0);
    }
    (answer, after)
}

fn profile_lost(lists: &Lists, buffer: &[u8]) -> (Answer, Vec<u8>) {
    let (answer, mut after) = by_model(lists, buffer);
    if let Answer::Done(_) = answer {
        after[12] = 0;
        seal(&mut after, 0);
    }
    (answer, after)
}

fn earlier_label(lists: &Lists, buffer: &[u8]) -> (Answer, Vec<u8>) {
    let (answer, after) = by_model(lists, buffer);
    let tag = |place: u32| {
        let record = lists.record(Kind::Label, place as usize);
        u32::from_le_bytes([record[0], record[1], record[2], record[3]])
    };
    match answer {
        Answer::Refused { number: 33, place } if place > 0 && tag(place) <= tag(place - 1) => {
            let kind = Kind::Label;
            let place = place as usize - 1;
            (expected(Err(Refusal::Lent { kind, place })), after)
        }
        _ => (answer, after),
    }
}
