//! The compiled `brawnesk_write`, `brawnesk_check` and the three calls that take an image apart, among themselves: the
//! writer refuses just what the check refuses of the image laid out, an image taken apart and written again is the
//! same bytes, and written records taken apart are the records that were lent. What taking apart answers to any image
//! is the model's.
//!
//! A wrong answer names its seed; `BRAWNESK_SEED=<seed> cargo test --release` compares that seed alone.

use brawnesk_tests::builder::{full, random_with, sample, to_image};
use brawnesk_tests::builder::{Edition, Policy, Sizes, Tree, Variant};
use brawnesk_tests::cases::{policy, Case};
use brawnesk_tests::compare::{one_seed, seeds, written, CallTally};
use brawnesk_tests::ffi::{self, Answer};
use brawnesk_tests::model::{laid_out, records_of, Kind};
use brawnesk_tests::rng::Rng;
use brawnesk_tests::shifted::Shifted;
use brawnesk_tests::tables::numbers::{bytes, room};
use brawnesk_tests::writing::{assert_law, LawTally, Lists, WriteCase};
use brawnesk_tests::{in_each_edition, in_each_variant};
use std::hint::black_box;

/// In each edition and profile.
const CASES: u64 = 12_000;
const POLICIES: u64 = 2_000;
const IMAGES: u64 = 12_000;

in_each_variant! {
    the_law_of_writer_and_check
    images_are_written_again
    records_are_taken_apart
    taking_apart_agrees_with_the_model
    alignment_does_not_matter
}

in_each_edition! {
    trees_are_written_again
}

const LONGEST: usize = 65_536;

/// Asks the library for an image of the records.
fn write(lists: &Lists, buffer: &mut [u8]) -> Answer {
    ffi::write(&black_box(lists).lent(), black_box(buffer))
}

/// Asks the library for the records of a kind. The image has to stay as it is.
fn records(kind: Kind, image: &[u8], buffer: &mut [u8]) -> Answer {
    let own = image.to_vec();
    let answer = ffi::records(kind, black_box(&own), black_box(buffer));
    assert!(*black_box(&own) == *image, "image changed");
    answer
}

/// "For whole records of classes 1 to 3 with counts in their limits": those that can be laid out.
fn the_law_of_writer_and_check(variant: Variant) {
    let mut tally = LawTally::default();
    for seed in seeds(0..CASES) {
        let lists = WriteCase::new(variant, seed).lists;
        let Some(image) = laid_out(&lists.lent()) else {
            continue;
        };
        let checked = ffi::check(&image);
        let mut buffer = vec![0xa5; LONGEST];
        let answer = write(&lists, &mut buffer);
        assert_law(
            &image,
            &lists,
            (answer, &buffer),
            checked,
            &format!("seed {seed}"),
        );
        tally.add(&lists, answer, checked);
    }
    println!("{tally:?}");
    if one_seed().is_none() {
        tally.assert_varied(variant.profile, 1_000);
    }
}

/// An image taken apart by the library.
fn taken_apart(image: &[u8], case: &str) -> Lists {
    let list = |kind| {
        let mut buffer = vec![0xa5; LONGEST];
        let Answer::Done(length) = records(kind, image, &mut buffer) else {
            panic!("{case}: an accepted image is refused");
        };
        let length = length as usize;
        assert!(buffer[length..].iter().all(|&byte| byte == 0xa5), "{case}");
        buffer.truncate(length);
        buffer
    };
    Lists {
        edition: image[4],
        profile: image[12],
        lists: Kind::ALL.map(list),
    }
}

/// The image of a policy taken apart and written again, into a buffer that just holds it, is the same bytes.
fn written_again(policy: &Policy, case: &str) {
    let image = to_image(policy);
    let lists = taken_apart(&image, case);
    assert_eq!(lists, Lists::of(policy), "{case}");
    let mut buffer = vec![0xa5; image.len()];
    let answer = write(&lists, &mut buffer);
    assert_eq!(answer, Answer::Done(image.len() as u64), "{case}");
    assert!(buffer == image, "{case}: other bytes");
}

fn images_are_written_again(variant: Variant) {
    for seed in seeds(0..POLICIES) {
        let policy = policy(variant, &mut Rng::new(seed));
        written_again(&policy, &format!("seed {seed}"));
    }
    written_again(&variant.sample(), "the sample");
    written_again(&full(variant), "the largest");
}

/// The largest with each form of parents.
fn trees_are_written_again(edition: Edition) {
    for tree in Tree::ALL {
        let policy = random_with(tree, Sizes::full(edition), &mut Rng::new(3));
        written_again(&policy, &format!("{tree:?}"));
    }
}

/// What is written is accepted, and the records taken out of it are those that were lent.
fn records_are_taken_apart(variant: Variant) {
    let mut seen = 0;
    for seed in seeds(0..CASES) {
        let lists = WriteCase::new(variant, seed).lists;
        let mut image = vec![0xa5; LONGEST];
        if let Answer::Done(length) = write(&lists, &mut image) {
            let case = format!("seed {seed}");
            image.truncate(length as usize);
            assert_eq!(ffi::check(&image), Answer::Done(0), "{case}");
            assert_eq!(taken_apart(&image, &case), lists, "{case}");
            seen += 1;
        }
    }
    assert!(one_seed().is_some() || seen >= 800, "{seen} written");
}

/// The name of the call.
fn name(kind: Kind) -> &'static str {
    match kind {
        Kind::Component => "component_records",
        Kind::Label => "label_records",
        Kind::User => "user_records",
    }
}

/// Images of all kinds, whole and damaged, in buffers of all lengths.
fn taking_apart_agrees_with_the_model(variant: Variant) {
    let mut tally = CallTally::default();
    for seed in seeds(0..IMAGES) {
        let (image, mut rng) = (Case::new(variant, seed).image, Rng::new(!seed));
        for kind in Kind::ALL {
            let whole = records_of(&image, kind, usize::MAX);
            let about = whole.map_or(300, |records| records.len());
            let buffer = bytes(room(about, &mut rng), &mut rng);
            let mut given = buffer.clone();
            let answer = records(kind, &image, &mut given);
            let (wanted, after) = written(records_of(&image, kind, buffer.len()), &buffer);
            assert_eq!(answer, wanted, "seed {seed}: {kind:?}");
            assert!(given == after, "seed {seed}: {kind:?}, buffer");
            tally.add(name(kind), false, answer);
        }
    }
    println!("{tally:?}");
    if one_seed().is_none() {
        for kind in Kind::ALL {
            tally.assert_least(name(kind), &["done", "13"], 100);
            tally.assert_of_images(variant.profile, name(kind), 50);
        }
    }
}

/// An image without labels and users has none; a buffer of no bytes is enough for none.
#[test]
fn no_labels_and_no_users() {
    let mut policy = sample();
    policy.labels.clear();
    policy.users.clear();
    let image = to_image(&policy);
    for kind in [Kind::Label, Kind::User] {
        assert_eq!(records(kind, &image, &mut []), Answer::Done(0));
        let mut buffer = [0xa5; 40];
        assert_eq!(records(kind, &image, &mut buffer), Answer::Done(0));
        assert_eq!(buffer, [0xa5; 40]);
    }
    written_again(&policy, "neither labels nor users");
}

/// Images and buffers may begin anywhere, and nothing around them changes.
fn alignment_does_not_matter(variant: Variant) {
    let policy = variant.sample();
    let (image, lists) = (to_image(&policy), Lists::of(&policy));
    for (kind, list) in Kind::ALL.into_iter().zip(&lists.lists) {
        for shift in 0..8 {
            let mut lent = Shifted::new(shift, &image);
            let mut buffer = Shifted::new(7 - shift, &vec![0; list.len()]);
            let answer = ffi::records(kind, lent.inner(), buffer.inner());
            assert_eq!(answer, Answer::Done(list.len() as u64));
            assert!(buffer.inner() == list);
            buffer.assert_around();
            lent.assert_around();
        }
    }
}
