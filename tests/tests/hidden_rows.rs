//! Demand 3 on the compiled calls: what a user without READ and FULL is given, and what rows hold, does
//! not depend on rows that the user may not read at the maximum read label.
//!
//! A difference names its seed; `BRAWNESK_SEED=<seed> cargo test --release` runs that seed alone.

use brawnesk_tests::builder::Variant;
use brawnesk_tests::compare::{one_seed, seeds};
use brawnesk_tests::hidden::{both, case, lifted, Difference, HiddenTally, Leak, Leaky, Library};
use brawnesk_tests::in_each_variant;

const PAIRS: u64 = 2_000;
const CALLS: usize = 50;

in_each_variant! {
    hidden_rows_do_not_show
    leaks_are_found
}

/// Both runs of a sequence give the same, leave equal lists of rows that are readable at the maximum,
/// and leave every hidden row as it was. Each call is also compared with the model.
fn hidden_rows_do_not_show(variant: Variant) {
    let mut tally = HiddenTally::default();
    for seed in seeds(0..PAIRS) {
        let (scene, steps) = case(variant, seed, CALLS);
        let name = format!("seed {seed}");
        let runs = both(&scene, &steps, &Library::new(&name, &scene.image));
        let runs = runs.unwrap_or_else(|difference| panic!("{name}: {difference:?}"));
        tally.add(&scene, &steps, &runs);
    }
    println!("{tally:?}");
    if one_seed().is_none() {
        tally.assert_varied(50, 1_000);
    }
}

/// The same runs find each way in which a program might let hidden rows show, in the answers, in the
/// lists at the end and in the hidden rows. No library is asked.
fn leaks_are_found(variant: Variant) {
    let mut found = [0; Leak::ALL.len()];
    let mut ends = [0; 2];
    for seed in 0..200 {
        let (scene, steps) = case(variant, seed, CALLS);
        let lifted = lifted(&scene);
        for (leak, found) in Leak::ALL.into_iter().zip(&mut found) {
            let runs = both(&scene, &steps, &Leaky::new(&scene, &lifted, leak));
            *found += usize::from(runs.is_err());
            match runs {
                Err(Difference::Lists) => ends[0] += 1,
                Err(Difference::HiddenRow { .. }) => ends[1] += 1,
                _ => {}
            }
        }
    }
    let found: Vec<_> = Leak::ALL.into_iter().zip(found).collect();
    println!("{found:?}, at the end {ends:?}");
    assert!(found.iter().all(|(_, times)| *times >= 15), "{found:?}");
    assert!(ends.iter().all(|times| *times >= 15), "{ends:?}");
}
