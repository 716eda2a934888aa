//! The compiled calls of request R-4 against the model: maps are made, judged, and read by.
//!
//! A wrong answer names its seed; `BRAWNESK_SEED=<seed> cargo test --release` compares that seed alone.

use brawnesk_tests::builder::{to_image, Edition, Variant};
use brawnesk_tests::compare::{one_seed, seeds, CallTally};
use brawnesk_tests::ffi::{self, Answer, SESSION};
use brawnesk_tests::maps::facts::{self, OTHERS};
use brawnesk_tests::maps::{ask, by_hand, each_map_call, MapTally};
use brawnesk_tests::pairs::Program;
use brawnesk_tests::shifted::Shifted;
use brawnesk_tests::{in_each_edition, in_each_variant};

/// In each edition and profile.
const POLICIES: u64 = 2_000;
const CALLS_EACH: usize = 40;

in_each_variant! {
    the_library_agrees_with_the_model
    mapped_reads_are_plain_reads
    bits_are_verdicts
    maps_of_others
    vectors_of_reading
}

in_each_edition! {
    answers_by_hand
    alignment_does_not_matter
}

fn the_library_agrees_with_the_model(variant: Variant) {
    let mut tally = MapTally::default();
    for seed in seeds(0..POLICIES) {
        each_map_call(variant, seed, CALLS_EACH, |step| {
            let call = &step.call;
            let mut given = step.lent.clone();
            let answer = ask(step.image, call, &mut given);
            assert_eq!(answer, step.answer, "seed {seed}: {call:?}");
            let difference = given.difference(&step.after);
            assert_eq!(difference, None, "seed {seed}: {call:?}");
            tally.add(step);
        });
    }
    println!("{tally:?}");
    if one_seed().is_none() {
        tally.assert_varied(variant, 50);
    }
}

/// A read by a map that the library made.
fn mapped_reads_are_plain_reads(variant: Variant) {
    let mut tally = CallTally::default();
    for seed in seeds(0..1_000) {
        facts::mapped_reads_are_plain_reads(Program::Library, variant, seed, &mut tally);
    }
    println!("{tally:?}");
    if one_seed().is_none() {
        let outcomes = ["rows", "no rows", "19", "12", "13"];
        tally.assert_least("read_mapped", &outcomes, 50);
        tally.assert_of_images(variant.profile, "read_mapped", 20);
    }
}

fn bits_are_verdicts(variant: Variant) {
    let mut tally = CallTally::default();
    for seed in seeds(0..400) {
        facts::bits_are_verdicts(Program::Library, variant, seed, &mut tally);
    }
    println!("{tally:?}");
    if one_seed().is_none() {
        tally.assert_both("bit");
        tally.assert_least("bit", &["yes", "no"], 2_000);
    }
}

fn maps_of_others(variant: Variant) {
    let mut tally = CallTally::default();
    for seed in seeds(0..400) {
        facts::maps_of_others(Program::Library, variant, seed, &mut tally);
    }
    println!("{tally:?}");
    if one_seed().is_none() {
        for whose in OTHERS {
            tally.assert_least(whose, &["done", "20"], 1_000);
        }
    }
}

fn vectors_of_reading(variant: Variant) {
    let reads = facts::vectors_of_reading(Program::Library, variant);
    assert!(reads >= 40, "{reads}");
}

fn answers_by_hand(edition: Edition) {
    by_hand::check(edition, &ask);
}

/// Images, sessions, maps, tables and buffers may begin anywhere.
fn alignment_does_not_matter(edition: Edition) {
    let (lent, map) = (brawnesk_tests::tables::by_hand::lent(0), [5]);
    let whole = to_image(&edition.tree().sample());
    for shift in 0..8 {
        let mut image = Shifted::new(shift, &whole);
        let mut session = Shifted::new(7 - shift, &lent.session);
        let mut table = Shifted::new((shift + 1) % 8, &lent.table);
        let mut judged = Shifted::new((shift + 2) % 8, &map);
        let mut made = Shifted::new((shift + 3) % 8, &[0]);
        let mut rows = Shifted::new((shift + 5) % 8, &[0; 21]);
        let lent_session: &[u8; SESSION] = (&*session.inner())
            .try_into()
            .expect("as many bytes as a session has");
        let answer = ffi::map(image.inner(), lent_session, made.inner());
        assert_eq!(answer, Answer::Done(1));
        assert_eq!(*made.inner(), map);
        let answer = ffi::judge_map(image.inner(), lent_session, judged.inner());
        assert_eq!(answer, Answer::Done(0));
        let (table_bytes, map_bytes) = (table.inner(), judged.inner());
        let answer = ffi::read_mapped(
            image.inner(),
            lent_session,
            table_bytes,
            7,
            map_bytes,
            rows.inner(),
        );
        assert_eq!(answer, Answer::Done(3));
        assert_eq!(
            *rows.inner(),
            [&table_bytes[7..14], &table_bytes[21..35]].concat()
        );
        for around in [&image, &session, &table, &judged, &made, &rows] {
            around.assert_around();
        }
    }
}
