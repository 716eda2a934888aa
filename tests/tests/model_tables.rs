//! The model of tables by itself, and what it is compared on.

use brawnesk_tests::builder::{sample, to_image, Edition, Variant};
use brawnesk_tests::hidden::{both, case, HiddenTally, Model};
use brawnesk_tests::model::{accepted, may_read_at_maximum};
use brawnesk_tests::tables::{by_hand, each_row_call, RowTally};
use brawnesk_tests::{in_each_edition, in_each_variant};

in_each_edition! {
    answers_by_hand
    the_maximum_read_label
}

in_each_variant! {
    row_calls_are_varied
    hidden_rows_do_not_show
}

fn answers_by_hand(edition: Edition) {
    by_hand::check(edition, &|image, call, lent| {
        call.by_model(&accepted(image), lent)
    });
}

/// The row calls for comparing go everywhere.
fn row_calls_are_varied(variant: Variant) {
    let mut tally = RowTally::default();
    for seed in 0..2_000 {
        each_row_call(variant, seed, 40, |step| tally.add(step));
    }
    println!("{tally:?}");
    tally.assert_varied(variant, 50);
}

/// At VAULT:KILN,GLAZE:NORTH, MARA's maximum read label: 10 is CREW:KILN:DOCK, 20 is CREW::WORKS, 30 is
/// OPEN, and the other tags are unknown.
fn the_maximum_read_label(edition: Edition) {
    let image = to_image(&sample().in_edition(edition));
    let image = accepted(&image).expect("the sample is accepted");
    let readable = |&tag: &u32| may_read_at_maximum(&image, 0, tag);
    let tags = [0, 10, 20, 30, 40, 100_000_010];
    let readable: Vec<u32> = tags.into_iter().filter(readable).collect();
    assert_eq!(readable, [10, 30]);
}

/// The runs for demand 3 go everywhere, and the model keeps it.
fn hidden_rows_do_not_show(variant: Variant) {
    let mut tally = HiddenTally::default();
    for seed in 0..500 {
        let (scene, steps) = case(variant, seed, 50);
        let runs = both(&scene, &steps, &Model::new(&scene.image));
        let runs = runs.unwrap_or_else(|difference| panic!("seed {seed}: {difference:?}"));
        tally.add(&scene, &steps, &runs);
    }
    println!("{tally:?}");
    tally.assert_varied(10, 250);
}
