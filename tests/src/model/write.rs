//! Request R-1 with the numbers of R-2: images written from records, and taken apart. Of what is lent all faults
//! are collected, in no order, each with a key; the one of the lowest key is told.

use super::counts::{Counts, Kind};
use super::edition::edition;
use super::lay_out::lay_out;
use super::layout::{Image, BLOCK};
use super::profile::Profile;
use super::{accepted, fitting, groups, records, Refusal};

/// What the writer is told and lent: an edition, a profile, and a list of records for each kind.
#[derive(Clone, Copy, Debug)]
pub struct Lent<'a> {
    pub edition: u8,
    pub profile: u8,
    pub lists: [&'a [u8]; 3],
}

/// A broken rule, and where.
#[derive(Clone, Copy, Debug, PartialEq, Eq)]
pub enum WriteFault {
    /// "A count outside its limits or a length that isn't whole records", "an unknown edition or profile".
    Counts,
    /// The record at this place of its list breaks a rule of its kind that is not by below.
    Record { kind: Kind, place: usize },
    /// The parents of this group never end.
    Ring { group: usize },
    /// The groups of this user break a rule by below, or in the release profile one of those in its place.
    Below { user: usize },
}

/// "31 (first)"; then the kinds in the order in which their blocks would stand; "35 comes after all these; a
/// user's below rules come last".
#[derive(Clone, Copy, Debug, PartialEq, Eq, PartialOrd, Ord)]
enum Stage {
    Counts,
    Records(Kind),
    Parents,
    Below,
}

impl WriteFault {
    /// What faults are ordered by: the stage, and the place in it.
    pub fn key(&self) -> impl Ord {
        match *self {
            WriteFault::Counts => (Stage::Counts, 0),
            WriteFault::Record { kind, place } => (Stage::Records(kind), place),
            WriteFault::Ring { group } => (Stage::Parents, group),
            WriteFault::Below { user } => (Stage::Below, user),
        }
    }

    /// "A record is told by its place in what was lent, without a block."
    pub fn refusal(self) -> Refusal {
        match self {
            WriteFault::Counts => Refusal::Layout,
            WriteFault::Record { kind, place } => Refusal::Lent { kind, place },
            WriteFault::Ring { group } => Refusal::Ring(group),
            WriteFault::Below { user } => Refusal::Lent {
                kind: Kind::User,
                place: user,
            },
        }
    }
}

/// The image of the records, for a buffer of `room` bytes. "Refusals: 3 if the records break a rule of the image or
/// a lent length isn't whole records, then 13."
pub fn write(lent: &Lent, room: usize) -> Result<Vec<u8>, Refusal> {
    let fault = write_faults(lent).into_iter().min_by_key(WriteFault::key);
    match fault {
        Some(fault) => Err(fault.refusal()),
        None => fitting(laid_out(lent).expect("no class is at fault"), room),
    }
}

/// The records laid out, whatever rules they break, where an image has room for so many. A component of a class
/// that there isn't has no place in an image.
pub fn laid_out(lent: &Lent) -> Option<Vec<u8>> {
    let counts = counts(lent)?;
    let is_known = lent.components().all(|record| (1..=3).contains(&record[0]));
    is_known.then(|| lay_out(&counts, lent.lists))
}

/// Every fault. Where the counts are at fault no record is looked at.
pub fn write_faults(lent: &Lent) -> Vec<WriteFault> {
    let Some(counts) = counts(lent) else {
        return vec![WriteFault::Counts];
    };
    let records = Image::of_lists(counts, lent.lists);
    let mut faults = misplaced(&counts, lent);
    faults.extend(
        Kind::ALL
            .into_iter()
            .flat_map(|kind| in_records(&records, kind)),
    );
    let endless = groups::endless(&records).into_iter();
    faults.extend(endless.map(|group| WriteFault::Ring { group }));
    let users =
        (0..counts.users().count).filter(|&user| !records::user_groups_hold(&records, user));
    faults.extend(users.map(|user| WriteFault::Below { user }));
    faults
}

/// "There a class has as many records as name it". Records of other classes are not counted.
fn counts(lent: &Lent) -> Option<Counts> {
    let edition = edition(lent.edition)?;
    let profile = Profile::of(lent.profile)?;
    let sizes = [40, edition.label_records.size, edition.user_records.size];
    let is_whole = |(list, size): (&[u8], usize)| list.len().is_multiple_of(size);
    if !lent.lists.into_iter().zip(sizes).all(is_whole) {
        return None;
    }
    let of_class = |class: u8| lent.components().filter(|it| it[0] == class).count();
    let counts = Counts {
        edition,
        profile,
        levels: of_class(1),
        compartments: of_class(2),
        groups: of_class(3),
        labels: lent.lists[1].len() / sizes[1],
        users: lent.lists[2].len() / sizes[2],
    };
    counts.in_limits().then_some(counts)
}

impl Lent<'_> {
    fn components(&self) -> impl Iterator<Item = &[u8]> {
        self.lists[0].chunks(40)
    }
}

/// "A component whose class isn't the one the counts put at its place is at fault itself", also where there are
/// more components than the counts have places for.
fn misplaced(counts: &Counts, lent: &Lent) -> Vec<WriteFault> {
    let classes = [vec![1; counts.levels], vec![2; counts.compartments]].concat();
    let expected = classes.into_iter().chain(std::iter::repeat(3));
    let places = lent.components().zip(expected).enumerate();
    let wrong = places.filter(|(_, (record, class))| record[0] != *class);
    let at = |place| WriteFault::Record {
        kind: Kind::Component,
        place,
    };
    wrong.map(|(place, _)| at(place)).collect()
}

/// Records that break a rule by themselves, and of two that clash the later.
fn in_records(records: &Image, kind: Kind) -> Vec<WriteFault> {
    let count = records.counts.runs()[kind as usize].count;
    let broken = (0..count).filter(|&place| !records::holds(records, kind, place));
    let clashes = records::clashes(records, kind).into_iter();
    let at_fault = broken.chain(clashes.map(|(_, later)| later));
    at_fault
        .map(|place| WriteFault::Record { kind, place })
        .collect()
}

/// The records of a kind of an accepted image, for a buffer of `room` bytes: "an accepted image taken apart". They
/// are all that its blocks of that kind hold.
pub fn records_of(image: &[u8], kind: Kind, room: usize) -> Result<Vec<u8>, Refusal> {
    let run = &accepted(image)?.counts.runs()[kind as usize];
    let blocks = image
        .chunks(BLOCK)
        .filter(|block| block[0] == kind.number());
    let held = |block: &[u8]| block[4..][..usize::from(block[1]) * run.records.size].to_vec();
    fitting(blocks.flat_map(held).collect(), room)
}
