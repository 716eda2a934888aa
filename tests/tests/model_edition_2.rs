//! The model and the builder on an image of edition 2 whose bytes are written out from request R-11; and
//! COMPACCESS, which it has not by request R-12.

use brawnesk_tests::builder::layout::{seal, BLOCK};
use brawnesk_tests::builder::{
    sample, to_image, Component, Edition, Label, Levels, Policy, Profile, Rights, Set, User,
    COMPACCESS,
};
use brawnesk_tests::cases::by_hand::{self, image};
use brawnesk_tests::compare::expected;
use brawnesk_tests::damage::{Damage, Draft, Expected};
use brawnesk_tests::model::{self, check, faults, Kind, Places, Refusal};
use brawnesk_tests::moving::{self, by_hand::sized};
use brawnesk_tests::rng::Rng;

fn component(name: &str, number: u16, parent: Option<u16>) -> Component {
    Component {
        name: name.to_string(),
        number,
        parent,
    }
}

/// The image's policy.
fn policy() -> Policy {
    let [c, g, h] = [0, 0, 1].map(Set::of);
    let label = |tag, compartments, groups| Label {
        tag,
        level: 0,
        compartments,
        groups,
    };
    let rights = |[read, write, default, row]: [Set; 4]| Rights {
        read,
        write,
        default,
        row,
    };
    Policy {
        edition: Edition::Two,
        profile: Profile::Tree,
        levels: vec![component("L", 10, None)],
        compartments: vec![component("C", 1, None)],
        groups: vec![component("G", 1, None), component("H", 2, Some(0))],
        labels: vec![label(5, c, h), label(7, Set::NONE, Set::NONE)],
        users: vec![User {
            name: "U".to_string(),
            privileges: 0,
            levels: Levels {
                maximum: 0,
                minimum: 0,
                default: 0,
                row: 0,
            },
            compartments: rights([c; 4]),
            groups: rights([g, h, g, h]),
        }],
    }
}

#[test]
fn the_image_is_accepted_and_the_builders() {
    assert_eq!(check(&image()), Ok(()));
    assert_eq!(to_image(&policy()), image());
    assert_eq!(model::name(&image(), 3, 1), Ok((BLOCK + 126, 1)));
    assert_eq!(model::report(&image()), "U 5 rw\nU 7 rw\n");
}

#[test]
fn refusals_by_hand() {
    by_hand::check(&|image| expected(check(image).map(|()| 0)));
}

/// Each group that the policy lacks: 19 in a session, 18 in a label that is printed or compared.
#[test]
fn groups_past_the_policy() {
    let image = image();
    let accepted = model::accepted(&image).expect("it is accepted");
    let opened = model::open(&accepted, b"U").expect("U is a user");
    assert_eq!(model::may_read(&accepted, &opened, 5), Ok(true));
    for place in 2..256 {
        let with = |label: &model::Label| model::Label {
            groups: label.groups | Places::from([place]),
            ..label.clone()
        };
        let (mut in_label, mut in_row) = (opened.clone(), opened.clone());
        in_label.label = with(&opened.label);
        in_row.row = with(&opened.row);
        for session in [in_label, in_row] {
            let refused = Err(Refusal::Session);
            assert_eq!(model::may_read(&accepted, &session, 5), refused, "{place}");
            assert_eq!(model::may_write(&accepted, &session, 0), refused, "{place}");
        }
        let (label, past) = (&opened.label, &with(&opened.label));
        let refused = Err(Refusal::Component);
        assert_eq!(model::print(&image, past), Err(Refusal::Component));
        assert_eq!(model::dominates(&accepted, label, past), refused, "{place}");
        assert_eq!(model::dominates(&accepted, past, label), refused, "{place}");
        let merged = model::merge(label, past, b"LUU").map(|it| it.groups);
        assert_eq!(merged, Ok(Places::from([0, place])));
    }
}

/// The sample with four users, two in a block. Faults are added one by one, each of which is told before all
/// that are there: a user who holds COMPACCESS after all that stands before, and before a ring and what lies
/// below.
#[test]
fn compaccess_is_judged_in_block_order() {
    let user = |place: usize| Refusal::Record {
        kind: Kind::User,
        block: 3 + place / 2,
        record: place % 2,
    };
    let byte =
        |place: usize, byte: usize| 3 * BLOCK + place / 2 * BLOCK + 4 + place % 2 * 200 + byte;
    let mut image = to_image(&sized(3, 4).in_edition(Edition::Two));
    assert_eq!(check(&image), Ok(()));
    let faults = [
        // The write groups of the first user are SOUTH, which is not below NORTH.
        (byte(0, 104), 8, user(0)),
        // DOCK is its own parent.
        (BLOCK + 4 + 7 * 40 + 34, 2, Refusal::Ring(2)),
        (byte(3, 31), 4, user(3)),
        (byte(2, 31), 4 + 128, user(2)),
        (byte(1, 31), 127, user(1)),
        (byte(1, 39), 1, user(1)),
        (byte(0, 31), 6, user(0)),
        (3 * BLOCK + 509, 1, Refusal::Layout),
    ];
    for (at, value, wanted) in faults {
        image[at] = value;
        seal(&mut image, at / BLOCK);
        assert_eq!(check(&image), Err(wanted), "byte {at}");
    }
}

/// Each privilege byte of the only user: edition 1 refuses those with bit 128, edition 2 also those with
/// COMPACCESS.
#[test]
fn every_privilege_byte() {
    for edition in Edition::ALL {
        for privileges in 0..=255 {
            let mut policy = sample().in_edition(edition);
            policy.users[0].privileges = privileges;
            let is_accepted = match edition {
                Edition::One => privileges < 128,
                Edition::Two => privileges < 128 && privileges / 4 % 2 == 0,
            };
            let checked = check(&to_image(&policy));
            assert_eq!(checked.is_ok(), is_accepted, "{edition:?}, {privileges}");
        }
    }
}

/// The damage sets the bit in one user and changes nothing else but the check of the block. The image then has
/// that fault alone.
#[test]
fn the_bit_is_the_only_fault() {
    let mut seen = 0;
    for seed in 0..400 {
        let mut rng = Rng::new(seed);
        let mut draft = Draft::new(moving::policy(Edition::Two, &mut rng));
        let whole = draft.image.clone();
        let Some(Expected::Fault(fault)) = Damage::Compaccess.apply(&mut draft, &mut rng) else {
            assert_eq!(draft.image, whole, "seed {seed}");
            continue;
        };
        let image = &draft.image;
        assert_eq!(faults(image), [fault], "seed {seed}");
        let changed: Vec<usize> = (0..whole.len())
            .filter(|&at| whole[at] != image[at])
            .collect();
        let bit = changed[0];
        let check = bit / BLOCK * BLOCK + 510;
        assert_eq!(image[bit] - whole[bit], COMPACCESS, "seed {seed}");
        assert_eq!(changed, [bit, check, check + 1], "seed {seed}");
        seen += 1;
    }
    assert!(seen >= 200, "{seen}");
}
