//! The model of the writer and of taking apart by itself, what it is compared on, and wrong writers, each of which
//! has to be told from it.

use brawnesk_tests::builder::{full, to_image, to_records, Edition, Variant};
use brawnesk_tests::cases::{policy, Case};
use brawnesk_tests::compare::{expected, CallTally};
use brawnesk_tests::ffi::Answer;
use brawnesk_tests::in_each_variant;
use brawnesk_tests::model::{check, laid_out, records_of, write, Kind, Refusal};
use brawnesk_tests::rng::Rng;
use brawnesk_tests::writing::wrong::Wrong;
use brawnesk_tests::writing::{assert_law, by_hand, by_model, LawTally};
use brawnesk_tests::writing::{ListDamage, Lists, WriteCase, WriteTally};

in_each_variant! {
    cases_are_varied
    the_law_of_writer_and_check
    images_are_written_again
    records_are_taken_apart
    taking_apart_is_refused_as_the_check
    every_wrong_writer_is_told
    limits
}

const CASES: u64 = 6_000;

fn ask(lists: &Lists, buffer: &mut [u8]) -> Answer {
    let (answer, after) = by_model(lists, buffer);
    buffer.copy_from_slice(&after);
    answer
}

#[test]
fn answers_by_hand() {
    by_hand::check(&ask);
}

/// The cases for comparing go everywhere, and what damage tells of them is right.
fn cases_are_varied(variant: Variant) {
    let mut tally = WriteTally::default();
    for seed in 0..CASES {
        let case = WriteCase::new(variant, seed);
        case.assert_told(&format!("seed {seed}"));
        tally.add(&case);
    }
    println!("{tally:?}");
    tally.assert_varied(variant, 15);
    assert!(tally.kinds() >= 90, "{} kinds", tally.kinds());
}

/// What the model's check says of the image laid out.
fn the_law_of_writer_and_check(variant: Variant) {
    let mut tally = LawTally::default();
    for seed in 0..CASES {
        let lists = WriteCase::new(variant, seed).lists;
        let Some(image) = laid_out(&lists.lent()) else {
            continue;
        };
        let checked = expected(check(&image).map(|()| 0));
        let (answer, after) = by_model(&lists, &vec![0; image.len()]);
        assert_law(
            &image,
            &lists,
            (answer, &after),
            checked,
            &format!("seed {seed}"),
        );
        tally.add(&lists, answer, checked);
    }
    println!("{tally:?}");
    tally.assert_varied(variant.profile, 500);
}

/// The lists of an image, taken apart.
fn taken_apart(image: &[u8]) -> Lists {
    let list = |kind| records_of(image, kind, usize::MAX).expect("an accepted image");
    Lists {
        edition: image[4],
        profile: image[12],
        lists: Kind::ALL.map(list),
    }
}

/// An accepted image taken apart and written again is the same bytes, and its records are the builder's.
fn images_are_written_again(variant: Variant) {
    let mut rng = Rng::new(1);
    let policies = (0..1_000).map(|_| policy(variant, &mut rng));
    for policy in policies.chain([full(variant), variant.sample()]) {
        let image = to_image(&policy);
        let lists = taken_apart(&image);
        assert_eq!(lists.lists, to_records(&policy).map(|it| it.concat()));
        assert!(write(&lists.lent(), usize::MAX) == Ok(image));
    }
}

/// Written records read back are the records given.
fn records_are_taken_apart(variant: Variant) {
    let mut seen = 0;
    for seed in 0..CASES {
        let lists = WriteCase::new(variant, seed).lists;
        if let Ok(image) = write(&lists.lent(), usize::MAX) {
            assert_eq!(check(&image), Ok(()), "seed {seed}");
            assert_eq!(taken_apart(&image), lists, "seed {seed}");
            seen += 1;
        }
    }
    assert!(seen >= 400, "{seen} written");
}

/// 1, 2 and 31 to 35 as everywhere, then 13 by the length of the records.
fn taking_apart_is_refused_as_the_check(variant: Variant) {
    let mut seen = CallTally::default();
    for seed in 0..3_000 {
        let image = Case::new(variant, seed).image;
        for kind in Kind::ALL {
            let whole = records_of(&image, kind, usize::MAX);
            match (&whole, check(&image)) {
                (Ok(records), Ok(())) => {
                    let (room, length) = (records.len(), records.len().saturating_sub(1));
                    assert!(records_of(&image, kind, room) == whole, "seed {seed}");
                    let short = records_of(&image, kind, length);
                    assert_eq!(short.is_ok(), records.is_empty(), "seed {seed}");
                    seen.count("records", if records.is_empty() { "none" } else { "some" });
                }
                (Err(refusal), Err(checked)) => {
                    assert_eq!(*refusal, checked, "seed {seed}");
                    seen.count("records", refusal.number().to_string());
                }
                other => panic!("seed {seed}: {other:?}"),
            }
        }
    }
    println!("{seen:?}");
    seen.assert_least(
        "records",
        &["none", "some", "1", "2", "31", "32", "33", "34"],
        20,
    );
}

/// Cases by seed and answers by hand tell each wrong writer from the model.
fn every_wrong_writer_is_told(variant: Variant) {
    let cases: Vec<WriteCase> = (0..CASES / 2)
        .map(|seed| WriteCase::new(variant, seed))
        .collect();
    for wrong in Wrong::ALL {
        let by_hand = by_hand::differences(&|lists, buffer| wrong.ask(lists, buffer));
        assert!(!by_hand.is_empty(), "{wrong:?} is not told by hand");
        let is_told = |case: &&WriteCase| {
            let mut buffer = case.buffer.clone();
            wrong.ask(&case.lists, &mut buffer) != case.answer || buffer != case.after
        };
        let told = cases.iter().filter(is_told).count();
        let is_of = match wrong {
            Wrong::ProfileLost => variant.is_release(),
            _ => !variant.is_release() || !wrong.is_of_trees(),
        };
        println!("{wrong:?}: {} by hand, {told} by seed", by_hand.len());
        assert!(!is_of || told >= 15, "{wrong:?} is told {told} times");
    }
}

/// As many as there may be of each are written, and one more of any is 31, though it clashes with the one before.
fn limits(variant: Variant) {
    let whole = Lists::of(&full(variant));
    let most = match variant.edition {
        Edition::One => [160, 1_680, 96],
        Edition::Two => [352, 800, 32],
    };
    assert_eq!(Kind::ALL.map(|kind| whole.count(kind)), most);
    let image = write(&whole.lent(), usize::MAX).expect("in all limits");
    assert_eq!((image.len(), check(&image)), (127 * 512, Ok(())));
    for (kind, places) in [
        (Kind::Component, &[0, 32, 96][..]),
        (Kind::Label, &[0]),
        (Kind::User, &[0]),
    ] {
        for &place in places {
            let mut lists = whole.clone();
            let record = lists.record(kind, place).to_vec();
            lists.insert(kind, place, &record);
            let refused = write(&lists.lent(), usize::MAX);
            assert_eq!(refused, Err(Refusal::Layout), "{kind:?} at {place} again");
        }
    }
}

/// Every kind of damage to lists comes, in each edition and profile.
#[test]
fn every_kind_of_list_damage_is_done() {
    for variant in Variant::ALL {
        let mut rng = Rng::new(2);
        for damage in ListDamage::ALL {
            let done = (0..100).filter(|_| {
                let mut lists = Lists::of(&policy(variant, &mut rng));
                damage.apply(&mut lists, &mut rng).is_some()
            });
            let done = done.count();
            assert!(done >= 10, "{damage:?}, {variant:?}: {done} times");
        }
    }
}
