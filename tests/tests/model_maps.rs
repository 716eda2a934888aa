//! The model of maps by itself, and what it is compared on.

use brawnesk_tests::builder::{Edition, Variant};
use brawnesk_tests::compare::CallTally;
use brawnesk_tests::maps::facts::{self, OTHERS};
use brawnesk_tests::maps::{by_hand, each_map_call, MapTally};
use brawnesk_tests::model::accepted;
use brawnesk_tests::pairs::Program;
use brawnesk_tests::{in_each_edition, in_each_variant};

in_each_edition! {
    answers_by_hand
}

in_each_variant! {
    calls_are_varied
    mapped_reads_are_plain_reads
    bits_are_verdicts
    maps_of_others
    vectors_of_reading
}

fn answers_by_hand(edition: Edition) {
    by_hand::check(edition, &|image, call, lent| {
        call.by_model(&accepted(image), lent)
    });
}

/// The calls for comparing go everywhere.
fn calls_are_varied(variant: Variant) {
    let mut tally = MapTally::default();
    for seed in 0..2_000 {
        each_map_call(variant, seed, 20, |step| tally.add(step));
    }
    println!("{tally:?}");
    tally.assert_varied(variant, 20);
}

fn mapped_reads_are_plain_reads(variant: Variant) {
    let mut tally = CallTally::default();
    for seed in 0..200 {
        facts::mapped_reads_are_plain_reads(Program::Model, variant, seed, &mut tally);
    }
    println!("{tally:?}");
    let outcomes = ["rows", "no rows", "19", "12", "13"];
    tally.assert_least("read_mapped", &outcomes, 20);
}

fn bits_are_verdicts(variant: Variant) {
    let mut tally = CallTally::default();
    for seed in 0..200 {
        facts::bits_are_verdicts(Program::Model, variant, seed, &mut tally);
    }
    println!("{tally:?}");
    tally.assert_both("bit");
    tally.assert_least("bit", &["yes", "no"], 1_000);
}

fn maps_of_others(variant: Variant) {
    let mut tally = CallTally::default();
    for seed in 0..200 {
        facts::maps_of_others(Program::Model, variant, seed, &mut tally);
    }
    println!("{tally:?}");
    for whose in OTHERS {
        tally.assert_least(whose, &["done", "20"], 500);
    }
}

fn vectors_of_reading(variant: Variant) {
    let reads = facts::vectors_of_reading(Program::Model, variant);
    assert!(reads >= 40, "{reads}");
}
