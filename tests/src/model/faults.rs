//! All faults of an image that neither 1 nor 2 refuses, each with a key in the order of request
//! The image is refused with the fault of the lowest key, wherever it was found.

use super::counts::{Kind, Run};
use super::layout::Image;
use super::{groups, records, Refusal};

/// A broken rule, and where.
#[derive(Clone, Copy, Debug, PartialEq, Eq)]
pub enum Fault {
    /// The header or a length unfit for its counts, which both count for block 0; or a block's
    /// kind, record count or bytes outside records.
    Layout { block: usize },
    /// A record breaks a rule of its kind that is not by below.
    Record {
        kind: Kind,
        block: usize,
        record: usize,
    },
    /// The parents of this group never end.
    Ring { group: usize },
    /// The groups of this user break a rule by below, or in the release profile one of those in its place.
    Below { block: usize, record: usize },
}

/// "The lowest block decides among 31 to 34", "35 comes after all these; a user's below rules come
/// last". By R-10 "in place of the below rules (a user's come last, as those did)".
#[derive(Clone, Copy, Debug, PartialEq, Eq, PartialOrd, Ord)]
enum Stage {
    Blocks,
    Parents,
    Below,
}

/// What faults are ordered by: the stage, then the block or group, then the record. "In it 31
/// first": a fault of a block's layout has no record, and `None` is lower than any record.
#[derive(Clone, Copy, Debug, PartialEq, Eq, PartialOrd, Ord)]
pub struct Key {
    stage: Stage,
    place: usize,
    record: Option<usize>,
}

impl Fault {
    pub fn key(&self) -> Key {
        let (stage, place, record) = match *self {
            Fault::Layout { block } => (Stage::Blocks, block, None),
            Fault::Record { block, record, .. } => (Stage::Blocks, block, Some(record)),
            Fault::Ring { group } => (Stage::Parents, group, None),
            Fault::Below { block, record } => (Stage::Below, block, Some(record)),
        };
        Key {
            stage,
            place,
            record,
        }
    }

    pub fn refusal(self) -> Refusal {
        let of = |kind, block, record| Refusal::Record {
            kind,
            block,
            record,
        };
        match self {
            Fault::Layout { .. } => Refusal::Layout,
            Fault::Record {
                kind,
                block,
                record,
            } => of(kind, block, record),
            Fault::Ring { group } => Refusal::Ring(group),
            Fault::Below { block, record } => of(Kind::User, block, record),
        }
    }
}

/// The fault that decides, if there is any.
pub fn first_fault(image: &[u8]) -> Option<Fault> {
    faults(image).into_iter().min_by_key(Fault::key)
}

/// Every fault, in no order. An image whose header or length is at fault can't be taken apart, so
/// that nothing after block 0 is looked at.
pub fn faults(image: &[u8]) -> Vec<Fault> {
    let Some(image) = Image::read(image) else {
        return vec![Fault::Layout { block: 0 }];
    };
    let mut faults = Vec::new();
    for run in image.counts.runs() {
        faults.extend(in_records(&image, &run));
        faults.extend(in_layout(&image, &run));
    }
    let endless = groups::endless(&image).into_iter();
    faults.extend(endless.map(|group| Fault::Ring { group }));
    faults.extend(by_below(&image));
    faults
}

/// Blocks of another kind or record count than the counts give them, or with bytes that are not
/// zero after their records.
fn in_layout(image: &Image, run: &Run) -> Vec<Fault> {
    let is_broken = |&block: &usize| {
        let bytes = image.block(block);
        let records = run.records_in(block);
        let end = 4 + records * run.records.size;
        bytes[0] != run.kind.number()
            || usize::from(bytes[1]) != records
            || !records::all_zero(&bytes[end..510])
    };
    let broken = (run.first..run.end()).filter(is_broken);
    broken.map(|block| Fault::Layout { block }).collect()
}

/// Records that break a rule by themselves, and of two that clash the later.
fn in_records(image: &Image, run: &Run) -> Vec<Fault> {
    let kind = run.kind;
    let broken = (0..run.count).filter(|&place| !records::holds(image, kind, place));
    let clashes = records::clashes(image, kind).into_iter();
    let at_fault = broken.chain(clashes.map(|(_, later)| later));
    let fault = |place: usize| {
        let (block, record) = run.at(place);
        Fault::Record {
            kind,
            block,
            record,
        }
    };
    at_fault.map(fault).collect()
}

/// Users whose groups break a rule that comes last. Where parents never end a walk along them is cut; such
/// an image has a ring too, which comes before.
fn by_below(image: &Image) -> Vec<Fault> {
    let run = image.counts.users();
    let broken = (0..run.count).filter(|&user| !records::user_groups_hold(image, user));
    let places = broken.map(|user| run.at(user));
    places
        .map(|(block, record)| Fault::Below { block, record })
        .collect()
}

#[cfg(test)]
mod tests {
    use super::*;

    /// Faults in the order of the request's words.
    #[test]
    fn keys_rise() {
        let of = |kind, block, record| Fault::Record {
            kind,
            block,
            record,
        };
        let in_order = [
            Fault::Layout { block: 0 },
            of(Kind::Component, 1, 0),
            of(Kind::Component, 1, 11),
            of(Kind::Label, 1, 20),
            Fault::Layout { block: 2 },
            of(Kind::Component, 2, 0),
            of(Kind::User, 2, 1),
            Fault::Layout { block: 126 },
            of(Kind::User, 126, 2),
            Fault::Ring { group: 0 },
            Fault::Ring { group: 63 },
            Fault::Below {
                block: 2,
                record: 1,
            },
            Fault::Below {
                block: 2,
                record: 2,
            },
            Fault::Below {
                block: 3,
                record: 0,
            },
        ];
        assert!(in_order.is_sorted_by_key(Fault::key));
        let keys = in_order.map(|fault| fault.key());
        assert!(keys.windows(2).all(|pair| pair[0] < pair[1]));
    }

    #[test]
    fn faults_are_refused_by_number_and_place() {
        let of = |kind| Fault::Record {
            kind,
            block: 3,
            record: 2,
        };
        let below = Fault::Below {
            block: 3,
            record: 2,
        };
        let place = 3 * 65_536 + 2;
        for (fault, number, place) in [
            (Fault::Layout { block: 3 }, 31, 0),
            (of(Kind::Component), 32, place),
            (of(Kind::Label), 33, place),
            (of(Kind::User), 34, place),
            (below, 34, place),
            (Fault::Ring { group: 5 }, 35, 5),
        ] {
            let refusal = fault.refusal();
            assert_eq!((refusal.number(), refusal.place()), (number, place));
        }
    }
}
