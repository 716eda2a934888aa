//! The model by itself: which of several faults it tells, in examples by hand and by seed.

use brawnesk_tests::builder::layout::{seal, BLOCK};
use brawnesk_tests::builder::{random, sample, to_image, Component, Edition, Policy, Sizes, User};
use brawnesk_tests::damage::{Damage, Draft, Expected};
use brawnesk_tests::in_each_edition;
use brawnesk_tests::model::{check, faults, first_fault, Fault, Kind, Refusal};
use brawnesk_tests::rng::Rng;

in_each_edition! {
    faults_come_in_order
    each_fault_is_told_before_the_ones_added_before
    examples
    rules_by_below_come_last_and_the_lowest_user_decides
    names_that_clash_over_two_blocks
    a_clash_over_two_blocks
    an_unfit_length_counts_for_block_0
}

/// Damages a policy twice, last what is to be found first: mending a block's check or writing a
/// record anew could undo earlier damage. Gives what is to be found.
fn twice(policy: &Policy, seed: u64, damages: [Damage; 2]) -> Option<(Expected, Vec<u8>)> {
    let mut rng = Rng::new(seed);
    let mut draft = Draft::new(policy.clone());
    damages[1].apply(&mut draft, &mut rng)?;
    let first = damages[0].apply(&mut draft, &mut rng)?;
    Some((first, draft.image))
}

/// Of two kinds of damage the first is found, wherever the second stands.
fn faults_come_in_order(edition: Edition) {
    let sizes = Sizes::medium(edition, &mut Rng::new(5));
    let policy = random(sizes, &mut Rng::new(5));
    for damages in [
        [Damage::CheckA, Damage::HeaderKind],
        [Damage::BlockPlace, Damage::BlockExtra],
        [Damage::CheckA, Damage::EditionUnknown],
        [Damage::EditionUnknown, Damage::TagZero],
        [Damage::EditionOther, Damage::RingLong],
        [Damage::GroupCountOver, Damage::GroupParentMissing],
        [Damage::HeaderUnused, Damage::Class],
        [Damage::CountUnfit, Damage::NameByte],
        [Damage::NameRepeated, Damage::TagZero],
        [Damage::ParentOfOtherEdition, Damage::TagOver],
        [Damage::NumberEqual, Damage::UserUnused],
        [Damage::LabelUnused, Damage::Privilege128],
        [Damage::LabelUnused, Damage::RingOfTwo],
        [Damage::UserNameRest, Damage::RingLong],
        [Damage::UserUnused, Damage::WriteGroup],
        [Damage::RingLong, Damage::DefaultGroup],
    ] {
        let mut tried = 0;
        for seed in 0..200 {
            let Some((first, image)) = twice(&policy, seed, damages) else {
                continue;
            };
            tried += 1;
            let refused = check(&image);
            assert_eq!(refused, Err(first.refusal()), "{damages:?}, seed {seed}");
            if let Expected::Fault(fault) = first {
                assert_eq!(first_fault(&image), Some(fault), "{damages:?}, seed {seed}");
            }
        }
        assert!(tried >= 20, "{damages:?} tried {tried} times");
    }
}

/// A byte for an image: its block, its place there, and its value.
type Byte = (usize, usize, u8);

/// A byte of the sample's components, which are in block 1: 3 levels, 2 compartments, 4 groups.
fn component(record: usize, byte: usize, value: u8) -> Byte {
    (1, 4 + record * 40 + byte, value)
}

/// Where bytes of the sample's labels and users stand in an edition.
#[derive(Clone, Copy)]
struct Of(Edition);

impl Of {
    fn image(self) -> Vec<u8> {
        to_image(&sample().in_edition(self.0))
    }

    /// The parent of a component, which is one byte or two.
    fn parent(self, record: usize, parent: u8) -> Vec<Byte> {
        let bytes = [component(record, 34, parent), component(record, 35, 0)];
        bytes[..self.0.parent().len()].to_vec()
    }

    /// A byte of the labels 10, 20 and 30, which are in block 2.
    fn label(self, record: usize, byte: usize, value: u8) -> Byte {
        let size = match self.0 {
            Edition::One => 24,
            Edition::Two => 48,
        };
        (2, 4 + record * size + byte, value)
    }

    /// A byte of the users, who are in block 3 and then in block 4.
    fn user(self, place: usize, byte: usize, value: u8) -> Byte {
        let (size, in_block) = match self.0 {
            Edition::One => (128, 3),
            Edition::Two => (200, 2),
        };
        (
            3 + place / in_block,
            4 + place % in_block * size + byte,
            value,
        )
    }

    /// A user's write groups: one byte of them.
    fn write_groups(self, place: usize, value: u8) -> Byte {
        let byte = match self.0 {
            Edition::One => 80,
            Edition::Two => 104,
        };
        self.user(place, byte, value)
    }
}

/// Puts bytes into an image and mends the checks. Then the image is refused so.
fn assert_refused(image: &mut [u8], bytes: &[Byte], wanted: Refusal) {
    for &(block, at, value) in bytes {
        image[block * BLOCK + at] = value;
        seal(image, block);
    }
    assert_eq!(check(image), Err(wanted), "{bytes:?}");
}

fn of(kind: Kind, block: usize, record: usize) -> Refusal {
    Refusal::Record {
        kind,
        block,
        record,
    }
}

/// Faults are added to the sample one by one, each of which is told before all that are there.
fn each_fault_is_told_before_the_ones_added_before(edition: Edition) {
    let it = Of(edition);
    let mut image = it.image();
    let added = [
        // MARA's write group is SOUTH, which isn't below NORTH.
        (vec![it.write_groups(0, 8)], of(Kind::User, 3, 0)),
        // SOUTH is its own parent. Then WORKS is under it, with NORTH and DOCK, and is not on the
        // ring.
        (it.parent(8, 3), Refusal::Ring(3)),
        (it.parent(5, 3), Refusal::Ring(0)),
        (vec![it.user(0, 39, 1)], of(Kind::User, 3, 0)),
        (vec![(3, 509, 1)], Refusal::Layout),
        (vec![it.label(2, 4, 3)], of(Kind::Label, 2, 2)),
        (vec![it.label(1, 3, 255)], of(Kind::Label, 2, 1)),
        (vec![(2, 1, 2)], Refusal::Layout),
        (vec![component(8, 36, 1)], of(Kind::Component, 1, 8)),
        (vec![component(0, 2, b'o')], of(Kind::Component, 1, 0)),
        (vec![(1, 0, 76)], Refusal::Layout),
    ];
    for (count, (bytes, wanted)) in (1..).zip(added) {
        assert_refused(&mut image, &bytes, wanted);
        assert!(faults(&image).len() >= count, "{:?}", faults(&image));
    }
    // Nothing after block 0 is looked at where the header is at fault.
    assert_refused(&mut image, &[(0, 12, 2)], Refusal::Layout);
    assert_eq!(faults(&image), [Fault::Layout { block: 0 }]);
    image[3 * BLOCK] ^= 1;
    assert_eq!(check(&image), Err(Refusal::Block(3)));
}

/// One or two bytes in the sample, and what is then told.
fn examples(edition: Edition) {
    let it = Of(edition);
    let beside_ring = [vec![component(8, 34, 254)], it.parent(5, 0)].concat();
    let examples: [(&[Byte], Refusal); 15] = [
        // The lines of the request: a level's padding, and a group that is its own parent.
        (&[component(0, 39, 1)], of(Kind::Component, 1, 0)),
        (&it.parent(7, 2), Refusal::Ring(2)),
        // The tail of a name's field is the record's; an empty place for a record is not.
        (&[component(8, 31, b'A')], of(Kind::Component, 1, 8)),
        (&[component(9, 0, 1)], Refusal::Layout),
        (&[it.user(0, 30, b'A')], of(Kind::User, 3, 0)),
        (&[it.user(1, 0, 1)], Refusal::Layout),
        (&[it.label(3, 0, 1)], Refusal::Layout),
        // Of two that clash the later is at fault, whichever was changed: CREW and VAULT, 20 and
        // 30.
        (
            &[component(1, 32, 44), component(1, 33, 1)],
            of(Kind::Component, 1, 2),
        ),
        (&[it.label(1, 0, 30)], of(Kind::Label, 2, 2)),
        // But VAULT is no compartment, and KILN no level, whatever they clash with.
        (&[(0, 5, 2), (0, 6, 3)], of(Kind::Component, 1, 2)),
        (&[(0, 5, 4), (0, 6, 1)], of(Kind::Component, 1, 3)),
        // A parent that is no group is a fault of its record, also beside a ring of a lower group.
        (&it.parent(8, 4), of(Kind::Component, 1, 8)),
        (&beside_ring, of(Kind::Component, 1, 8)),
        // NORTH's parent is DOCK, and DOCK's is NORTH.
        (&it.parent(6, 2), Refusal::Ring(1)),
        // A group that there isn't is a fault of the record; one that isn't below comes last.
        (
            &[it.write_groups(0, 16), component(7, 34, 2)],
            of(Kind::User, 3, 0),
        ),
    ];
    for (bytes, wanted) in examples {
        assert_refused(&mut it.image(), bytes, wanted);
    }
}

/// The sample with four users, of whom the last is in another block than the first two.
fn four_users(edition: Edition) -> Policy {
    let mut policy = sample().in_edition(edition);
    let mara = policy.users[0].clone();
    let named = |name: &str| User {
        name: name.to_string(),
        ..mara.clone()
    };
    policy.users = ["ANNA", "MARA", "NILS", "OLGA"].map(named).to_vec();
    policy
}

/// The refusal of one of the four users.
fn of_user(edition: Edition, place: usize) -> Refusal {
    match edition {
        Edition::One => of(Kind::User, 3 + place / 3, place % 3),
        Edition::Two => of(Kind::User, 3 + place / 2, place % 2),
    }
}

fn rules_by_below_come_last_and_the_lowest_user_decides(edition: Edition) {
    let (it, user) = (Of(edition), |place| of_user(edition, place));
    let mut image = to_image(&four_users(edition));
    let write_south = |place| it.write_groups(place, 8);
    assert_refused(&mut image, &[write_south(3)], user(3));
    assert_refused(&mut image, &[write_south(1)], user(1));
    assert_refused(&mut image, &[write_south(2)], user(1));
    assert_refused(&mut image, &it.parent(7, 2), Refusal::Ring(2));
    assert_refused(&mut image, &[it.user(3, 31, 128)], user(3));
    assert_refused(&mut image, &[it.user(2, 0, 0)], user(2));
}

/// The name of the last user of block 3 begins with Z, and the next one is in another block.
fn names_that_clash_over_two_blocks(edition: Edition) {
    let mut image = to_image(&four_users(edition));
    let first = match edition {
        Edition::One => 3,
        Edition::Two => 2,
    };
    let byte = Of(edition).user(first - 1, 1, b'Z');
    assert_refused(&mut image, &[byte], of(Kind::User, 4, 0));
}

/// Thirteen levels, of which the last is in a block of its own and has the first one's name.
fn a_clash_over_two_blocks(edition: Edition) {
    let mut policy = sample().in_edition(edition);
    let level = |number: u16| Component {
        name: format!("L{}", number % 12),
        number,
        parent: None,
    };
    policy.levels = (0..13).map(level).collect();
    let refused = check(&to_image(&policy));
    assert_eq!(refused, Err(of(Kind::Component, 2, 0)));
}

/// A length that doesn't fit the counts is told before all that stands in the blocks.
fn an_unfit_length_counts_for_block_0(edition: Edition) {
    let mut image = Of(edition).image();
    let padding = [component(0, 39, 1)];
    assert_refused(&mut image, &padding, of(Kind::Component, 1, 0));
    let more = [&image[..], &image[3 * BLOCK..]].concat();
    let place = (4, 2, 4);
    assert_refused(&mut more.clone(), &[place], Refusal::Layout);
    assert_refused(&mut image[..3 * BLOCK], &[], Refusal::Layout);
}
