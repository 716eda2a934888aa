//! The model and the builder in the release profile by themselves: images, and which of several faults is told.

use brawnesk_tests::builder::layout::{seal, BLOCK};
use brawnesk_tests::builder::{partners, random, to_image, Component, Edition, Label, Levels};
use brawnesk_tests::builder::{Policy, Profile, Rights, Set, Sizes, User, Variant, COMPACCESS};
use brawnesk_tests::cases::release::{self, image};
use brawnesk_tests::compare::{expected, CallTally};
use brawnesk_tests::model::{check, faults, Fault, Kind, Refusal};
use brawnesk_tests::model::{clear_compaccess, compaccess_users, move_up, report};
use brawnesk_tests::rng::Rng;
use brawnesk_tests::{in_each_edition, in_each_release};

in_each_edition! {
    the_image_is_accepted_and_the_builders
    each_fault_is_told_before_the_ones_added_before
}

in_each_release! {
    random_policies_are_varied
    every_privilege_byte
}

fn component(name: &str, number: u16) -> Component {
    Component {
        name: name.to_string(),
        number,
        parent: None,
    }
}

fn label(tag: u32, compartments: Set, groups: Set) -> Label {
    Label {
        tag,
        level: 0,
        compartments,
        groups,
    }
}

fn rights([read, write, default, row]: [Set; 4]) -> Rights {
    Rights {
        read,
        write,
        default,
        row,
    }
}

/// The policy of the image that is written out.
fn policy(edition: Edition) -> Policy {
    let [c, g, h] = [0, 0, 1].map(Set::of);
    Policy {
        edition,
        profile: Profile::Release,
        levels: vec![component("L", 10)],
        compartments: vec![component("C", 1)],
        groups: vec![component("G", 1), component("H", 2)],
        labels: vec![
            label(5, c, g),
            label(7, Set::NONE, g | h),
            label(9, Set::NONE, h),
        ],
        users: vec![User {
            name: "U".to_string(),
            privileges: 0,
            levels: Levels {
                maximum: 0,
                minimum: 0,
                default: 0,
                row: 0,
            },
            compartments: rights([c; 4]),
            groups: rights([g, g, g, g | h]),
        }],
    }
}

fn the_image_is_accepted_and_the_builders(edition: Edition) {
    let image = image(edition);
    assert_eq!(check(&image), Ok(()));
    assert_eq!(to_image(&policy(edition)), image);
    assert_eq!(report(&image), "U 5 rw\nU 7 rw\nU 9 --\n");
}

#[test]
fn refusals_by_hand() {
    release::check(&|image| expected(check(image).map(|()| 0)));
}

/// No parents and no COMPACCESS; users with and without read groups, with default groups that are the read groups
/// or more, and with row groups that are the default groups or more.
fn random_policies_are_varied(variant: Variant) {
    let mut seen = CallTally::default();
    for seed in 0..1_000 {
        let mut rng = Rng::new(seed);
        let policy = random(Sizes::medium(variant, &mut rng), &mut rng);
        assert_eq!(check(&to_image(&policy)), Ok(()), "seed {seed}");
        assert!(policy.groups.iter().all(|group| group.parent.is_none()));
        assert!(policy.holders().is_empty());
        for user in policy.users.iter().filter(|_| !policy.groups.is_empty()) {
            let Rights {
                read, default, row, ..
            } = user.groups;
            let is_more = |more: bool| if more { "more" } else { "the same" };
            seen.count("read", if read.is_empty() { "none" } else { "some" });
            seen.count("default", is_more(default != read));
            seen.count("row", is_more(row != default));
        }
    }
    println!("{seen:?}");
    seen.assert_least("read", &["none", "some"], 1_000);
    seen.assert_least("default", &["more", "the same"], 1_000);
    seen.assert_least("row", &["more", "the same"], 1_000);
}

/// Each privilege byte of each user of the sample.
fn every_privilege_byte(variant: Variant) {
    let in_block = match variant.edition {
        Edition::One => 3,
        Edition::Two => 2,
    };
    for place in 0..5 {
        for privileges in 0..=255 {
            let mut policy = variant.sample();
            policy.users[place].privileges = privileges;
            let wanted = match privileges & (128 | COMPACCESS) {
                0 => Ok(()),
                _ => Err(of(Kind::User, 3 + place / in_block, place % in_block)),
            };
            let checked = check(&to_image(&policy));
            assert_eq!(checked, wanted, "{place}: {privileges}");
        }
    }
}

fn of(kind: Kind, block: usize, record: usize) -> Refusal {
    Refusal::Record {
        kind,
        block,
        record,
    }
}

/// The sample has components in block 1: three levels, two compartments, and the groups HARBOUR, MILL and ORCHARD
/// at records 5 to 7. Labels are in block 2, and ANNA, HUGO, MILA, NILS and OLGA from block 3 on.
struct Faulty {
    edition: Edition,
    image: Vec<u8>,
}

impl Faulty {
    fn pick<T>(&self, one: T, two: T) -> T {
        match self.edition {
            Edition::One => one,
            Edition::Two => two,
        }
    }

    fn at_user(&self, place: usize) -> (usize, usize) {
        let (in_block, size) = self.pick((3, 128), (2, 200));
        (3 + place / in_block, 4 + place % in_block * size)
    }

    /// A byte of a user's record.
    fn user(&self, place: usize, byte: usize, value: u8) -> (usize, usize, u8) {
        let (block, at) = self.at_user(place);
        (block, at + byte, value)
    }

    /// One of the four sets of a user's groups: read, write, default, row.
    fn groups(&self, place: usize, which: usize, value: u8) -> (usize, usize, u8) {
        self.user(place, 72 + which * self.pick(8, 32), value)
    }

    fn of_user(&self, place: usize) -> Refusal {
        let in_block = self.pick(3, 2);
        of(Kind::User, 3 + place / in_block, place % in_block)
    }

    /// Puts a byte into the image, which is then refused so.
    fn assert_refused(&mut self, (block, at, value): (usize, usize, u8), wanted: Refusal) {
        self.image[block * BLOCK + at] = value;
        seal(&mut self.image, block);
        let refused = check(&self.image);
        assert_eq!(refused, Err(wanted), "block {block}, {at}: {value}");
    }
}

fn each_fault_is_told_before_the_ones_added_before(edition: Edition) {
    let mut it = Faulty {
        edition,
        image: to_image(&partners().in_edition(edition)),
    };
    assert_eq!(check(&it.image), Ok(()));
    let labels = it.pick(24, 48);
    let added = [
        // The row groups of NILS lack MILL, the default groups of MILA lack MILL, and HUGO writes ORCHARD.
        (it.groups(3, 3, 1), it.of_user(3)),
        (it.groups(2, 2, 1), it.of_user(2)),
        (it.groups(1, 1, 1 + 4), it.of_user(1)),
        // A group that there isn't is no rule of those that come last.
        (it.groups(4, 3, 4 + 8), it.of_user(4)),
        (it.user(3, 31, COMPACCESS), it.of_user(3)),
        (it.user(0, 31, 1 + COMPACCESS), it.of_user(0)),
        ((3, 509, 1), Refusal::Layout),
        ((2, 4 + 6 * labels + 4, 3), of(Kind::Label, 2, 6)),
        ((2, 4 + 16, 8), of(Kind::Label, 2, 0)),
        // The parent of ORCHARD is MILL, and HARBOUR is its own. In edition 2 the second byte makes it no group.
        ((1, 4 + 7 * 40 + 34, 1), of(Kind::Component, 1, 7)),
        ((1, 4 + 5 * 40 + 34, 0), of(Kind::Component, 1, 5)),
        ((1, 4 + 39, 1), of(Kind::Component, 1, 0)),
        ((1, 0, 76), Refusal::Layout),
    ];
    for (count, (byte, wanted)) in (1..).zip(added) {
        it.assert_refused(byte, wanted);
        assert!(faults(&it.image).len() >= count, "{:?}", faults(&it.image));
    }
    // Nothing after block 0 is looked at where the profile is none.
    it.assert_refused((0, 12, 2), Refusal::Layout);
    assert_eq!(faults(&it.image), [Fault::Layout { block: 0 }]);
    it.image[3 * BLOCK] ^= 1;
    assert_eq!(check(&it.image), Err(Refusal::Block(3)));
}

/// Rings of parents are no rings here: the lowest group that has a parent is told.
#[test]
fn there_are_no_rings() {
    for variant in [Edition::One.release(), Edition::Two.release()] {
        for parents in [[0, 1, 2], [1, 2, 0], [1, 0, 0], [2, 2, 2]] {
            let mut policy = variant.sample();
            for (group, parent) in policy.groups.iter_mut().zip(parents) {
                group.parent = Some(parent);
            }
            let image = to_image(&policy);
            assert_eq!(check(&image), Err(of(Kind::Component, 1, 5)));
            let is_ring = |fault: &Fault| matches!(fault, Fault::Ring { .. });
            assert!(!faults(&image).iter().any(is_ring));
        }
    }
}

/// A release image lists nobody, is cleared to itself, and keeps byte 12 in a move up.
#[test]
fn moves_keep_the_profile() {
    let image = to_image(&partners());
    assert_eq!(image[12], 1);
    assert_eq!(compaccess_users(&image, 0), Ok(vec![]));
    assert_eq!(clear_compaccess(&image, image.len()), Ok(image.clone()));
    let moved = move_up(&image, usize::MAX).expect("it has few labels and users");
    assert_eq!(moved, to_image(&partners().in_edition(Edition::Two)));
    assert_eq!(moved[12], 1);
    assert_eq!(move_up(&moved, usize::MAX), Err(Refusal::Layout));
}
