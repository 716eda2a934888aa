//! What the writer is told and lent: an edition, a profile, and records in three lists.

use crate::builder::{to_records, Policy};
use crate::damage::{Draft, Expected};
use crate::model::{Fault, Kind, Lent, Refusal};

#[derive(Clone, Debug, PartialEq, Eq)]
pub struct Lists {
    pub edition: u8,
    pub profile: u8,
    /// Records of components, of labels and of users, each list without gaps.
    pub lists: [Vec<u8>; 3],
}

impl Lists {
    pub fn of(policy: &Policy) -> Lists {
        Lists {
            edition: policy.edition.number(),
            profile: policy.profile.number(),
            lists: to_records(policy).map(|records| records.concat()),
        }
    }

    /// The records of a draft as damage has left them. What the header tells of the profile is told.
    pub fn of_draft(draft: &Draft) -> Lists {
        let lists = draft.policy.runs().map(|run| {
            let size = run.shape.size;
            let offsets = (0..run.count).map(|place| run.at(place).offset);
            let records = offsets.map(|offset| &draft.image[offset..][..size]);
            records.collect::<Vec<_>>().concat()
        });
        Lists {
            edition: draft.edition().number(),
            profile: draft.image[12],
            lists,
        }
    }

    pub fn lent(&self) -> Lent<'_> {
        Lent {
            edition: self.edition,
            profile: self.profile,
            lists: self.lists.each_ref().map(Vec::as_slice),
        }
    }

    /// The bytes of a record of a kind; those of edition 2 where the edition is unknown.
    pub fn size(&self, kind: Kind) -> usize {
        match (kind, self.edition) {
            (Kind::Component, _) => 40,
            (Kind::Label, 1) => 24,
            (Kind::Label, _) => 48,
            (Kind::User, 1) => 128,
            (Kind::User, _) => 200,
        }
    }

    pub fn list(&mut self, kind: Kind) -> &mut Vec<u8> {
        &mut self.lists[kind as usize]
    }

    /// How many whole records there are of a kind.
    pub fn count(&self, kind: Kind) -> usize {
        self.lists[kind as usize].len() / self.size(kind)
    }

    pub fn record(&self, kind: Kind, place: usize) -> &[u8] {
        let size = self.size(kind);
        &self.lists[kind as usize][place * size..][..size]
    }

    pub fn record_mut(&mut self, kind: Kind, place: usize) -> &mut [u8] {
        let size = self.size(kind);
        &mut self.lists[kind as usize][place * size..][..size]
    }

    /// Puts records in, before the one that stands at a place now.
    pub fn insert(&mut self, kind: Kind, place: usize, records: &[u8]) {
        let at = place * self.size(kind);
        self.list(kind).splice(at..at, records.iter().copied());
    }

    /// Two records of a kind change places.
    pub fn exchange(&mut self, kind: Kind, one: usize, other: usize) {
        let first = self.record(kind, one).to_vec();
        let second = self.record(kind, other).to_vec();
        self.record_mut(kind, one).copy_from_slice(&second);
        self.record_mut(kind, other).copy_from_slice(&first);
    }

    /// How many components are of a class.
    pub fn of_class(&self, class: u8) -> usize {
        let classes = self.lists[0].chunks_exact(40).map(|record| record[0]);
        classes.filter(|&it| it == class).count()
    }

    /// Whether the components have the classes that a policy has, each at its place.
    pub fn has_classes(&self, policy: &Policy) -> bool {
        let of = |class, count| vec![class; count];
        let classes = [
            of(1, policy.levels.len()),
            of(2, policy.compartments.len()),
            of(3, policy.groups.len()),
        ];
        let own = self.lists[0].chunks(40).map(|record| record[0]);
        own.eq(classes.concat())
    }
}

/// The refusal of a draft's records, if one that tells a record or a group is expected of its image.
pub fn of_expected(draft: &Draft, expected: Expected) -> Option<Refusal> {
    let place = |kind: Kind, block: usize, record: usize| {
        let run = &draft.policy.runs()[kind as usize];
        Refusal::Lent {
            kind,
            place: (block - run.first) * run.shape.in_block + record,
        }
    };
    match expected {
        Expected::Refused(_) | Expected::Fault(Fault::Layout { .. }) => None,
        Expected::Fault(Fault::Record {
            kind,
            block,
            record,
        }) => Some(place(kind, block, record)),
        Expected::Fault(Fault::Ring { group }) => Some(Refusal::Ring(group)),
        Expected::Fault(Fault::Below { block, record }) => Some(place(Kind::User, block, record)),
    }
}
