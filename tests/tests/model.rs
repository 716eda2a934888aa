//! The model by itself: what it accepts, and what it is compared on.

use brawnesk_tests::builder::{full, random, random_with, sample, to_image};
use brawnesk_tests::builder::{Edition, Profile, Sizes, Tree, Variant};
use brawnesk_tests::cases::{Case, DamageTally};
use brawnesk_tests::compare::expected;
use brawnesk_tests::model::{check, faults, name, Fault, Refusal};
use brawnesk_tests::rng::Rng;
use brawnesk_tests::vectors;
use brawnesk_tests::{in_each_edition, in_each_variant};

in_each_edition! {
    the_sample_is_accepted
    random_parents_are_varied
    trees_are_accepted
}

in_each_variant! {
    the_largest_image_is_accepted
    random_policies_are_accepted
    cases_are_varied
    wrong_orders_are_found
    vectors_of_images
}

fn the_sample_is_accepted(edition: Edition) {
    let image = to_image(&sample().in_edition(edition));
    assert_eq!(image.len(), 4 * 512);
    assert_eq!(check(&image), Ok(()));
    let (offset, length) = name(&image, 3, 2).expect("there are four groups");
    assert_eq!(&image[offset..offset + length], b"DOCK");
    assert_eq!(name(&image, 3, 4), Err(Refusal::Component));
}

fn the_largest_image_is_accepted(variant: Variant) {
    let image = to_image(&full(variant));
    assert_eq!(image.len(), 127 * 512);
    assert_eq!(check(&image), Ok(()));
}

fn random_policies_are_accepted(variant: Variant) {
    for seed in 0..2_000 {
        let mut rng = Rng::new(seed);
        let sizes = match seed % 50 {
            0 => Sizes::any(variant, &mut rng),
            1..=9 => Sizes::medium(variant, &mut rng),
            _ => Sizes::small(variant, &mut rng),
        };
        let image = to_image(&random(sizes, &mut rng));
        assert_eq!(check(&image), Ok(()), "seed {seed}");
    }
}

/// Parents stand at lower and at higher places, also at the last one, and chains go through all groups.
fn random_parents_are_varied(edition: Edition) {
    let groups = edition.most_groups();
    let policies = (0..40).map(|seed| random(Sizes::full(edition), &mut Rng::new(seed)));
    let (mut lower, mut higher, mut last, mut deepest) = (0, 0, 0, 0);
    for policy in policies {
        for (place, group) in policy.groups.iter().enumerate() {
            let parent = group.parent.map(usize::from);
            lower += usize::from(parent.is_some_and(|parent| parent < place));
            higher += usize::from(parent.is_some_and(|parent| parent > place));
            last += usize::from(parent == Some(groups - 1));
            deepest = deepest.max(policy.with_ancestors(place).count());
        }
    }
    println!("lower {lower}, higher {higher}, last {last}, deepest {deepest}");
    assert!(lower > 500 && higher > 500 && last > 15 && deepest == groups);
}

/// Each form of parents with all groups. In a chain all groups stand over one, and in a wide tree one at
/// most.
fn trees_are_accepted(edition: Edition) {
    let groups = edition.most_groups();
    for (seed, tree) in Tree::ALL.into_iter().enumerate() {
        let policy = random_with(tree, Sizes::full(edition), &mut Rng::new(seed as u64));
        assert_eq!(check(&to_image(&policy)), Ok(()), "{tree:?}");
        let parent = |group: usize| policy.groups[group].parent.map(usize::from);
        let depth = |group: usize| policy.with_ancestors(group).count();
        let deepest = (0..groups).map(depth).max();
        match tree {
            Tree::Any => assert!(deepest > Some(2)),
            Tree::Chain => assert_eq!(deepest, Some(groups)),
            Tree::ParentLower => assert!((1..groups).all(|it| parent(it) == Some(it - 1))),
            Tree::ParentHigher => assert!((1..groups).all(|it| parent(it - 1) == Some(it))),
            Tree::Wide => assert_eq!(deepest, Some(2)),
        }
    }
}

/// The images for comparing go everywhere.
fn cases_are_varied(variant: Variant) {
    let mut tally = DamageTally::default();
    for seed in 0..16_000 {
        let case = Case::new(variant, seed);
        let checked = check(&case.image);
        if let Some(refusal) = case.expected() {
            assert_eq!(checked, Err(refusal), "{:?}, seed {seed}", case.kind);
        }
        tally.add(&case, expected(checked.map(|()| 0)));
    }
    println!("{tally:?}");
    tally.assert_varied(variant, 10_000, 75);
}

/// The stage of a fault, its block or group, and its record counted from 1, or 0 without one.
type Parts = [usize; 3];

/// The right order.
fn key(fault: &Fault) -> Parts {
    match *fault {
        Fault::Layout { block } => [0, block, 0],
        Fault::Record { block, record, .. } => [0, block, 1 + record],
        Fault::Ring { group } => [1, group, 0],
        Fault::Below { block, record } => [2, block, 1 + record],
    }
}

/// An order by name, made from the right one.
type Order = (&'static str, fn(Parts) -> Parts);

/// Orders that a program might go by and that are wrong. In the release profile 35 has no place in any.
const WRONG: [Order; 9] = [
    ("35 first", |[stage, place, record]| {
        [(stage + 2) % 3, place, record]
    }),
    ("below before 35", |[stage, place, record]| {
        [(3 - stage) % 3, place, record]
    }),
    (
        "below with a user's other rules",
        |[stage, place, record]| [stage % 2, place, record],
    ),
    ("31 of all blocks first", |[stage, place, record]| {
        [stage, place + 1_000 * record.min(1), record]
    }),
    ("31 last in its block", |[stage, place, record]| {
        [stage, place, record.wrapping_sub(1)]
    }),
    (
        "the lowest record of all blocks",
        |[stage, place, record]| [stage, record, place],
    ),
    ("the highest record of a block", |[stage, place, record]| {
        [stage, place, record.min(1) * (1_000 - record)]
    }),
    ("the highest block or group", |[stage, place, record]| {
        [stage, 1_000 - place, record]
    }),
    ("labels and users before components", |key| match key {
        [0, 1, record] => [0, 1_000, record],
        key => key,
    }),
];

/// Each wrong order tells another fault for many of the images for comparing, and the right one for
/// none.
fn wrong_orders_are_found(variant: Variant) {
    let mut found = [0; WRONG.len()];
    for seed in 0..8_000 {
        let image = Case::new(variant, seed).image;
        let Err(refusal) = check(&image) else {
            continue;
        };
        if refusal.number() < 31 {
            continue;
        }
        let faults = faults(&image);
        let told = |key: &dyn Fn(&Fault) -> Parts| {
            let lowest = faults.iter().min_by_key(|fault| key(fault));
            lowest.map(|fault| fault.refusal())
        };
        assert_eq!(told(&key), Some(refusal), "seed {seed}");
        for ((_, order), found) in WRONG.iter().zip(&mut found) {
            *found += usize::from(told(&|fault| order(key(fault))) != Some(refusal));
        }
    }
    let found: Vec<_> = WRONG.iter().map(|(name, _)| name).zip(found).collect();
    println!("{found:?}");
    let is_found = |(name, times): &(&&str, usize)| {
        let is_of_rings = name.contains("35") && variant.is_release();
        is_of_rings || *times >= 25
    };
    assert!(found.iter().all(is_found), "{found:?}");
}

fn vectors_of_images(variant: Variant) {
    let cases = vectors::images(variant);
    let least = match variant.profile {
        Profile::Tree => 45,
        Profile::Release => 25,
    };
    assert!(cases.len() >= least, "{} cases", cases.len());
    for case in cases {
        let answer = expected(check(&case.image).map(|()| 0));
        assert_eq!(answer, case.answer, "{}", case.line);
    }
}
