//! The compiled check and the program `report` on images of the release profile, by hand. The other tests compare
//! them with the model by seed.

use brawnesk_tests::builder::{
    full, partners, to_image, Edition, Policy, Set, Variant, COMPACCESS,
};
use brawnesk_tests::compare::expected;
use brawnesk_tests::ffi::{self, Answer};
use brawnesk_tests::model;
use brawnesk_tests::program::report;
use brawnesk_tests::{in_each_edition, in_each_release};

in_each_release! {
    every_parent_is_refused
}

in_each_edition! {
    the_report_of_the_partners
    refused_images_give_one_line
}

/// Each of some groups of the largest image under each group, itself too.
fn every_parent_is_refused(variant: Variant) {
    let mut policy = full(variant);
    let count = policy.groups.len();
    for group in [0, 1, 62, 63, count - 2, count - 1] {
        let at = policy.group_at(group);
        let refused = Answer::Refused {
            number: 32,
            place: (at.block * 65_536 + at.record) as u32,
        };
        for parent in 0..count {
            policy.groups[group].parent = Some(parent as u16);
            let answer = ffi::check(&to_image(&policy));
            assert_eq!(answer, refused, "{group} under {parent}");
        }
        policy.groups[group].parent = None;
    }
    assert_eq!(ffi::check(&to_image(&policy)), Answer::Done(0));
}

/// The other profile, told of images that are accepted in their own: trees have parents, and row groups that are
/// more than the read groups are below none of them.
#[test]
fn images_of_the_other_profile() {
    for variant in Variant::ALL {
        for policy in [variant.sample(), full(variant)] {
            let image = to_image(&policy.in_profile(variant.profile.other()));
            let wanted = expected(model::check(&image).map(|()| 0));
            let number = if variant.is_release() { 34 } else { 32 };
            assert!(matches!(wanted, Answer::Refused { number: it, .. } if it == number));
            assert_eq!(ffi::check(&image), wanted, "{variant:?}");
        }
    }
}

/// By user and then tag, as partners.rs has the verdicts.
const LINES: [(&str, [&str; 7]); 5] = [
    ("ANNA", ["rw", "rw", "rw", "rw", "r-", "rw", "--"]),
    ("HUGO", ["rw", "rw", "--", "rw", "--", "r-", "--"]),
    ("MILA", ["--", "rw", "--", "rw", "r-", "--", "--"]),
    ("NILS", ["--", "rw", "--", "rw", "--", "--", "--"]),
    ("OLGA", ["r-", "r-", "r-", "r-", "r-", "rw", "r-"]),
];

fn the_report_of_the_partners(edition: Edition) {
    let mut lines = String::new();
    for (name, verdicts) in LINES {
        for (tag, verdict) in [10, 20, 30, 40, 50, 60, 70].into_iter().zip(verdicts) {
            lines += &format!("{name} {tag} {verdict}\n");
        }
    }
    let image = to_image(&partners().in_edition(edition));
    assert_eq!(model::report(&image), lines);
    assert_eq!(String::from_utf8_lossy(&report(&image)), lines);
}

/// A change to the partners, and the record that is told: a component's, or a user's by the user's place.
type Example = (fn(&mut Policy), At);

enum At {
    Component(usize),
    User(usize),
}

/// Components from 5 on are HARBOUR, MILL and ORCHARD; users are ANNA, HUGO, MILA, NILS and OLGA.
const EXAMPLES: [Example; 10] = [
    (|it| it.groups[1].parent = Some(0), At::Component(6)),
    (|it| it.groups[2].parent = Some(2), At::Component(7)),
    (|it| it.users[4].privileges |= COMPACCESS, At::User(4)),
    (|it| it.users[0].privileges = COMPACCESS, At::User(0)),
    // Default groups lack MILL, row groups HARBOUR, write groups HARBOUR; write groups have ORCHARD.
    (|it| it.users[2].groups.default = Set::of(0), At::User(2)),
    (|it| it.users[1].groups.row = Set::of(1), At::User(1)),
    (|it| it.users[3].groups.write = Set::of(1), At::User(3)),
    (|it| it.users[0].groups.write = Set::of(2), At::User(0)),
    // A group that there isn't.
    (|it| it.users[0].groups.row |= Set::of(3), At::User(0)),
    // The groups of ANNA come after what OLGA holds.
    (
        |it| {
            it.users[0].groups.write = Set::of(2);
            it.users[4].privileges |= COMPACCESS;
        },
        At::User(4),
    ),
];

fn refused_images_give_one_line(edition: Edition) {
    for (change, at) in &EXAMPLES {
        let mut policy = partners().in_edition(edition);
        change(&mut policy);
        let in_block = match edition {
            Edition::One => 3,
            Edition::Two => 2,
        };
        let (number, block, record) = match at {
            At::Component(place) => (32, 1, *place),
            At::User(place) => (34, 3 + place / in_block, place % in_block),
        };
        let line = format!("refused {number} at block {block} record {record}\n");
        let image = to_image(&policy);
        assert_eq!(model::report(&image), line);
        assert_eq!(String::from_utf8_lossy(&report(&image)), line);
        let place = (block * 65_536 + record) as u32;
        assert_eq!(ffi::check(&image), Answer::Refused { number, place });
    }
}
