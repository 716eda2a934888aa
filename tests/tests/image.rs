//! The compiled `brawnesk_check` and `brawnesk_name` against the model.
//!
//! A wrong answer names its seed; `BRAWNESK_SEED=<seed> cargo test --release` compares that image
//! alone.

use brawnesk_tests::builder::layout::seal;
use brawnesk_tests::builder::{full, random_with, sample, to_image};
use brawnesk_tests::builder::{Edition, Sizes, Tree, Variant};
use brawnesk_tests::cases::{by_hand, release, Case, DamageTally, Kind};
use brawnesk_tests::compare::{expected, one_seed, seeds, Tally};
use brawnesk_tests::ffi::{self, Answer};
use brawnesk_tests::model::{self, Refusal};
use brawnesk_tests::rng::Rng;
use brawnesk_tests::vectors;
use brawnesk_tests::{in_each_edition, in_each_variant};

/// In each edition and profile.
const CASES: u64 = 54_000;

/// How many damaged images there are at least that 31 to 35 refuse, half of them with several
/// faults.
const DAMAGED: usize = 40_000;

in_each_variant! {
    the_library_agrees_with_the_model
    all_names_of_the_largest_image_are_right
    alignment_does_not_matter
    vectors_of_images
}

in_each_edition! {
    the_sample_is_accepted_and_its_names_are_right
    trees_are_accepted
}

#[derive(Default)]
struct Seen {
    answers: Tally,
    damaged: DamageTally,
    large: usize,
    /// Names at places past 63 that there are.
    high_names: usize,
}

fn expected_name(image: &[u8], class: u8, place: u8) -> Answer {
    let part = model::name(image, class, place);
    expected(part.map(|(offset, length)| offset as u64 + 65_536 * length as u64))
}

/// Which names are asked for: of a small valid image all that there are and those around them, of a larger
/// one groups at the ends of words of 64 places, of others a few.
fn questions(case: &Case, rng: &mut Rng) -> Vec<(u8, u8)> {
    let is_small = case.image.len() < 8 * 512;
    let is_asked = case.kind == Kind::Valid && rng.once_in(4);
    if is_asked && !is_small {
        return [63, 64, 127, 128, 191, 192, 254, 255]
            .map(|it| (3, it))
            .to_vec();
    }
    if is_asked {
        let places = (0..=9).chain([31, 32, 63, 64, 65, 127, 128, 254, 255]);
        return places
            .flat_map(|place| (0..=4).map(move |class| (class, place)))
            .collect();
    }
    let place = |rng: &mut Rng| match rng.index(4) {
        0 => rng.byte(),
        1 => 255,
        _ => rng.index(8) as u8,
    };
    let class = |rng: &mut Rng| {
        if rng.once_in(20) {
            rng.byte()
        } else {
            rng.index(5) as u8
        }
    };
    (0..3).map(|_| (class(rng), place(rng))).collect()
}

/// Number and place of both are the same: block and record of 32 to 34, the group of 35.
fn compare(variant: Variant, seed: u64, seen: &mut Seen) {
    let case = Case::new(variant, seed);
    let kind = case.kind;
    let image = &case.image;
    let answer = ffi::check(image);
    let checked = model::check(image);
    let wanted = expected(checked.map(|()| 0));
    assert_eq!(answer, wanted, "check of {kind:?}, seed {seed}");
    if let Some(refusal) = case.expected() {
        let refusal = expected(Err(refusal));
        assert_eq!(answer, refusal, "damage of {kind:?}, seed {seed}");
    }
    seen.answers.add(answer);
    seen.damaged.add(&case, answer);
    for (class, place) in questions(&case, &mut Rng::new(!seed)) {
        let answer = ffi::name(image, class, place);
        let wanted = match checked {
            Ok(()) => expected_name(image, class, place),
            Err(refusal) => expected(Err(refusal)),
        };
        assert_eq!(
            answer, wanted,
            "name {class}, {place} of {kind:?}, seed {seed}"
        );
        seen.answers.add(answer);
        seen.high_names += usize::from(place > 63 && matches!(answer, Answer::Done(_)));
    }
    seen.large += usize::from(image.len() >= 100 * 512 && image.len() <= 65_536);
}

fn the_library_agrees_with_the_model(variant: Variant) {
    let mut seen = Seen::default();
    for seed in seeds(0..CASES) {
        compare(variant, seed, &mut seen);
    }
    println!("answers {:?}, large images {}", seen.answers, seen.large);
    println!("{:?}", seen.damaged);
    if one_seed().is_some() {
        return;
    }
    let least = [(0, 4_000), (1, 1_000), (2, 1_000), (18, 4_000)];
    seen.answers.assert_least(&least);
    seen.damaged.assert_varied(variant, DAMAGED, 300);
    assert!(seen.large >= 300, "{} large images", seen.large);
    match variant.edition {
        Edition::One => assert_eq!(seen.high_names, 0),
        Edition::Two => assert!(seen.high_names >= 300, "{}", seen.high_names),
    }
}

fn the_sample_is_accepted_and_its_names_are_right(edition: Edition) {
    let image = to_image(&sample().in_edition(edition));
    assert_eq!(ffi::check(&image), Answer::Done(0));
    let names: [&[&str]; 3] = [
        &["OPEN", "CREW", "VAULT"],
        &["KILN", "GLAZE"],
        &["WORKS", "NORTH", "DOCK", "SOUTH"],
    ];
    for (class, names) in (1..).zip(names) {
        for (place, &name) in (0..).zip(names) {
            let Answer::Done(value) = ffi::name(&image, class, place) else {
                panic!("name {class}, {place} is refused");
            };
            let (offset, length) = (value as usize % 65_536, value as usize / 65_536);
            assert_eq!(&image[offset..][..length], name.as_bytes());
        }
        let refused = ffi::name(&image, class, names.len() as u8);
        assert_eq!(refused, expected(Err(Refusal::Component)));
    }
}

/// Every name of the largest image, in all its component blocks.
fn all_names_of_the_largest_image_are_right(variant: Variant) {
    let policy = full(variant);
    let image = to_image(&policy);
    let classes = [&policy.levels, &policy.compartments, &policy.groups];
    for (class, components) in (1..).zip(classes) {
        for (place, component) in (0..=255).zip(components) {
            let answer = ffi::name(&image, class, place);
            assert_eq!(answer, expected_name(&image, class, place));
            let Answer::Done(value) = answer else {
                panic!("name {class}, {place} is refused");
            };
            let (offset, length) = (value as usize % 65_536, value as usize / 65_536);
            assert_eq!(&image[offset..][..length], component.name.as_bytes());
        }
    }
}

/// Each form of parents with all groups, and then with a group that is over itself.
fn trees_are_accepted(edition: Edition) {
    for (seed, tree) in Tree::ALL.into_iter().enumerate() {
        let sizes = Sizes::full(edition);
        let mut policy = random_with(tree, sizes, &mut Rng::new(seed as u64));
        assert_eq!(ffi::check(&to_image(&policy)), Answer::Done(0), "{tree:?}");
        for group in [0, 1, 62, 63, sizes.groups - 2, sizes.groups - 1] {
            let parent = policy.groups[group].parent.replace(group as u16);
            let image = to_image(&policy);
            let wanted = expected(model::check(&image).map(|()| 0));
            assert_eq!(ffi::check(&image), wanted, "{tree:?}, group {group}");
            policy.groups[group].parent = parent;
        }
    }
}

/// The file that the example program is run on is the sample, byte for byte.
#[test]
fn the_sample_file_is_the_sample() {
    let path = concat!(env!("CARGO_MANIFEST_DIR"), "/../sample/cooperative.img");
    assert_eq!(std::fs::read(path).unwrap(), to_image(&sample()));
}

/// Edition 2, and the release profile in both editions, byte by byte.
#[test]
fn refusals_by_hand() {
    by_hand::check(&ffi::check);
    release::check(&ffi::check);
}

/// A slice may begin anywhere.
fn alignment_does_not_matter(variant: Variant) {
    let image = to_image(&full(variant));
    for shift in 1..8 {
        let mut shifted = vec![255; shift];
        shifted.extend_from_slice(&image);
        assert_eq!(ffi::check(&shifted[shift..]), Answer::Done(0));
        shifted[shift + 600] ^= 1;
        assert_eq!(
            ffi::check(&shifted[shift..]),
            expected(Err(Refusal::Block(1)))
        );
    }
}

#[test]
fn lengths_are_judged_first() {
    for length in [0, 1, 511, 513, 65_535, 65_537, 66_048, 131_072] {
        assert_eq!(ffi::check(&vec![0; length]), expected(Err(Refusal::Length)));
    }
    // Zeros have right checks; each block but the first has a wrong place.
    assert_eq!(ffi::check(&[0; 512]), expected(Err(Refusal::Layout)));
    assert_eq!(ffi::check(&[0; 65_536]), expected(Err(Refusal::Block(1))));
}

/// Every edition and every profile that there isn't.
#[test]
fn unknown_editions_and_profiles() {
    let policies = Variant::ALL.map(|variant| [variant.sample(), full(variant)]);
    for policy in policies.as_flattened() {
        let image = to_image(policy);
        assert_eq!(ffi::check(&image), Answer::Done(0));
        for (at, known) in [(4, [1, 2]), (12, [0, 1])] {
            let mut image = image.clone();
            for number in (0..=255).filter(|number| !known.contains(number)) {
                image[at] = number;
                seal(&mut image, 0);
                let answer = ffi::check(&image);
                assert_eq!(
                    answer,
                    expected(Err(Refusal::Layout)),
                    "byte {at}: {number}"
                );
            }
        }
    }
}

fn vectors_of_images(variant: Variant) {
    for case in vectors::images(variant) {
        assert_eq!(ffi::check(&case.image), case.answer, "{}", case.line);
    }
}
