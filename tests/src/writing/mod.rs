//! Images written from records by edition, profile and seed (request R-1): records up to all limits, with damage of
//! each kind, and with buffers of all lengths; and what programs that write are asked.

pub mod by_hand;
mod damage;
mod law;
mod lists;
mod tally;
pub mod wrong;

pub use damage::{ListDamage, Told};
pub use law::{assert_law, LawTally};
pub use lists::Lists;
pub use tally::WriteTally;

use crate::builder::{random, Sizes, Variant};
use crate::cases::policy;
use crate::compare::written;
use crate::damage::{Combined, Damage, Draft, Expected};
use crate::ffi::Answer;
use crate::model::{laid_out, write, Kind, Refusal};
use crate::rng::Rng;
use crate::tables::numbers::{bytes, room};
use lists::of_expected;

/// A program that is asked to write; what it is lent are the lists and the buffer.
pub type Ask<'a> = &'a dyn Fn(&Lists, &mut [u8]) -> Answer;

#[derive(Clone, Copy, Debug, PartialEq, Eq, PartialOrd, Ord)]
pub enum WriteKind {
    Valid,
    /// Damage to a record, as to one of an image.
    Record(Damage),
    /// Two faults of records of which one is known to be told.
    Records(Combined),
    /// Two to four kinds of damage to records.
    Several,
    /// Damage that an image can't show.
    List(ListDamage),
    /// One to three kinds of damage to records, and then damage to a list.
    RecordsAndList,
    /// Some bytes of records changed.
    Changed,
    /// Random bytes, mostly of whole records and often of right classes.
    Noise,
}

/// What has no kind of its own, and how often for each round through all kinds of damage.
const OTHERS: [(WriteKind, usize); 5] = [
    (WriteKind::Valid, 30),
    (WriteKind::Several, 40),
    (WriteKind::RecordsAndList, 50),
    (WriteKind::Changed, 20),
    (WriteKind::Noise, 10),
];

/// What the writer is asked, and what the model gives.
pub struct WriteCase {
    pub kind: WriteKind,
    pub lists: Lists,
    /// What becomes of the lists where the damage tells it.
    pub told: Told,
    pub buffer: Vec<u8>,
    pub answer: Answer,
    /// The buffer after the call.
    pub after: Vec<u8>,
}

impl WriteCase {
    pub fn new(variant: Variant, seed: u64) -> WriteCase {
        let mut rng = Rng::new(seed);
        let kind = kind_of(variant, seed);
        let (lists, told) = lists_of(kind, variant, &mut rng);
        let image = laid_out(&lists.lent());
        let about = image.map_or_else(|| rng.range(0, 3_000), |image| image.len());
        let room = room(about, &mut rng);
        let buffer = bytes(room, &mut rng);
        let (answer, after) = by_model(&lists, &buffer);
        WriteCase {
            kind,
            lists,
            told,
            buffer,
            answer,
            after,
        }
    }

    /// Asks that what the damage tells is the model's answer, but for 13.
    pub fn assert_told(&self, case: &str) {
        let kind = self.kind;
        let answer = write(&self.lists.lent(), usize::MAX);
        match self.told {
            Told::Accepted => assert!(answer.is_ok(), "{case}: {kind:?}, {answer:?}"),
            Told::Refused(refusal) => assert_eq!(answer, Err(refusal), "{case}: {kind:?}"),
            Told::Open => {}
        }
    }
}

/// The model's answer, and the buffer after it.
pub fn by_model(lists: &Lists, buffer: &[u8]) -> (Answer, Vec<u8>) {
    written(write(&lists.lent(), buffer.len()), buffer)
}

/// Whether the damage is one of records, and not of a header's counts.
fn is_of_records(damage: &Damage) -> bool {
    let by_header = [Damage::ClassByHeader, Damage::EditionOtherFits];
    damage.number() > 31 && !by_header.contains(damage)
}

/// Seeds in a row go through all kinds in turn.
fn kind_of(variant: Variant, seed: u64) -> WriteKind {
    let damages = Damage::of(variant).into_iter().filter(is_of_records);
    let damages = damages.map(WriteKind::Record);
    let combined = Combined::of(variant).into_iter();
    let combined = combined.filter(|it| it.number() > 31);
    let combined = combined.map(WriteKind::Records);
    let lists = ListDamage::ALL.iter().copied().map(WriteKind::List);
    let lists = lists.flat_map(|kind| [kind; 2]);
    let others = OTHERS.iter().flat_map(|&(kind, times)| vec![kind; times]);
    let kinds: Vec<WriteKind> = damages.chain(combined).chain(lists).chain(others).collect();
    kinds[(seed % kinds.len() as u64) as usize]
}

fn lists_of(kind: WriteKind, variant: Variant, rng: &mut Rng) -> (Lists, Told) {
    match kind {
        WriteKind::Valid if rng.once_in(20) => (largest(variant, rng), Told::Accepted),
        WriteKind::Valid => (Lists::of(&policy(variant, rng)), Told::Accepted),
        WriteKind::Record(damage) => of_draft(variant, rng, |draft, rng| damage.apply(draft, rng)),
        WriteKind::Records(damage) => of_draft(variant, rng, |draft, rng| damage.apply(draft, rng)),
        WriteKind::Several => {
            let wanted = rng.range(2, 4);
            (several(variant, wanted, rng), Told::Open)
        }
        WriteKind::List(damage) => of_list_damage(damage, variant, rng),
        WriteKind::RecordsAndList => records_and_list(variant, rng),
        WriteKind::Changed => (changed(variant, rng), Told::Open),
        WriteKind::Noise => (noise(variant, rng), Told::Open),
    }
}

/// As many records of each kind as there may be.
fn largest(variant: Variant, rng: &mut Rng) -> Lists {
    Lists::of(&random(Sizes::full(variant), rng))
}

/// Policies are tried until one has what the damage needs. Where a class is another the counts are too, and damage
/// to an image doesn't tell what becomes of the lists.
fn of_draft(
    variant: Variant,
    rng: &mut Rng,
    apply: impl Fn(&mut Draft, &mut Rng) -> Option<Expected>,
) -> (Lists, Told) {
    loop {
        let mut draft = Draft::new(policy(variant, rng));
        if let Some(expected) = apply(&mut draft, rng) {
            let lists = Lists::of_draft(&draft);
            let told = of_expected(&draft, expected).filter(|_| lists.has_classes(&draft.policy));
            return (lists, told.map_or(Told::Open, Told::Refused));
        }
    }
}

/// So many kinds of damage to records. Where the policy lacks what one needs another is tried, and at last another
/// policy.
fn several(variant: Variant, wanted: usize, rng: &mut Rng) -> Lists {
    let kinds: Vec<Damage> = Damage::of(variant)
        .into_iter()
        .filter(is_of_records)
        .collect();
    loop {
        let mut draft = Draft::new(policy(variant, rng));
        let tries = (0..40).filter_map(|_| rng.pick(&kinds).apply(&mut draft, rng));
        if tries.take(wanted).count() == wanted {
            return Lists::of_draft(&draft);
        }
    }
}

fn of_list_damage(damage: ListDamage, variant: Variant, rng: &mut Rng) -> (Lists, Told) {
    loop {
        let mut lists = Lists::of(&policy(variant, rng));
        if let Some(told) = damage.apply(&mut lists, rng) {
            return (lists, told);
        }
    }
}

/// 31 comes before all that is wrong with records.
fn records_and_list(variant: Variant, rng: &mut Rng) -> (Lists, Told) {
    let wanted = rng.range(1, 3);
    let mut lists = several(variant, wanted, rng);
    loop {
        let damage = rng.pick(ListDamage::ALL);
        if damage.apply(&mut lists, rng).is_some() {
            let told = match damage.comes_first() {
                true => Told::Refused(Refusal::Layout),
                false => Told::Open,
            };
            return (lists, told);
        }
    }
}

/// One to three bytes of records.
fn changed(variant: Variant, rng: &mut Rng) -> Lists {
    let mut lists = Lists::of(&policy(variant, rng));
    for _ in 0..rng.range(1, 3) {
        let list = &mut lists.lists[rng.index(3)];
        if let Some(at) = rng.place(0, list.len()) {
            list[at] = match rng.index(3) {
                0 => list[at] ^ 1 << rng.index(8),
                1 => list[at].wrapping_add(1),
                _ => rng.byte(),
            };
        }
    }
    lists
}

/// Random bytes in lists of any lengths, or in whole records, whose classes are often right ones.
fn noise(variant: Variant, rng: &mut Rng) -> Lists {
    let mut lists = Lists {
        edition: variant.edition.number(),
        profile: variant.profile.number(),
        lists: [0, 1, 2].map(|_| bytes(rng.range(0, 700), rng)),
    };
    if rng.once_in(4) {
        return lists;
    }
    for kind in Kind::ALL {
        let whole = lists.count(kind) * lists.size(kind);
        lists.list(kind).truncate(whole);
    }
    if rng.once_in(2) {
        let components = lists.list(Kind::Component).chunks_mut(40);
        let mut class = 1;
        components.for_each(|record| {
            record[0] = class;
            class = (class + rng.index(2) as u8).min(3);
        });
    }
    lists
}
