//! The plain calls on rows and on maps against the model.

use super::calls;
use super::tests::is_known;
use brawnesk_tests::builder::Edition;
use brawnesk_tests::ffi::Answer;
use brawnesk_tests::maps::{each_map_call, MapCall};
use brawnesk_tests::model;
use brawnesk_tests::rng::Rng;
use brawnesk_tests::row_calls::{Lent, RowCall};
use brawnesk_tests::tables::{self, Step};

fn asked(image: &[u8], call: &RowCall, lent: &mut Lent) -> Answer {
    let (session, table, buffer) = (&lent.session, &mut lent.table, &mut lent.buffer);
    match call {
        RowCall::Read { width } => calls::read(image, session, table, *width, buffer),
        RowCall::Update { width, n, payload } => {
            calls::update(image, session, table, *width, *n, payload)
        }
        RowCall::Masked { width, place, mask } => {
            calls::masked(image, session, table, *width, *place, mask)
        }
        RowCall::ReadMapped { width, map } => {
            calls::read_mapped(image, session, table, *width, map, buffer)
        }
    }
}

#[test]
fn rows() {
    for seed in 0..500 {
        tables::each_row_call(Edition::One, seed, 40, |step| {
            if !is_known(step.image) {
                return;
            }
            let (call, mut lent) = (&step.call, step.lent.clone());
            let answer = asked(step.image, call, &mut lent);
            assert_eq!(answer, step.answer, "seed {seed}: {call:?}");
            assert!(lent == step.after, "seed {seed}: {call:?}");
        });
    }
}

/// The same calls on tables of 300 to 700 rows, which have the rows of the table several times.
#[test]
fn many_rows() {
    let mut done = 0;
    for seed in 0..300 {
        let mut rng = Rng::new(!seed);
        tables::each_row_call(Edition::One, seed, 20, |step| {
            let Some((call, mut lent)) = repeated(step, &mut rng) else {
                return;
            };
            let mut wanted = lent.clone();
            let right = call.by_model(&model::accepted(step.image), &mut wanted);
            let answer = asked(step.image, &call, &mut lent);
            assert_eq!(answer, right, "seed {seed}: {call:?}");
            assert!(lent == wanted, "seed {seed}: {call:?}");
            done += u32::from(matches!(answer, Answer::Done(1..)));
        });
    }
    assert!(done > 500, "{done}");
}

/// Nothing for a table that isn't whole rows or has none.
fn repeated(step: &Step, rng: &mut Rng) -> Option<(RowCall, Lent)> {
    let (mut call, mut lent) = (step.call.clone(), step.lent.clone());
    let (width, length) = (call.width(), lent.table.len());
    let is_whole = (5..=512).contains(&width) && length.is_multiple_of(width);
    if !is_known(step.image) || !is_whole || !(width..width * 300).contains(&length) {
        return None;
    }
    let times = (300 * width).div_ceil(length) + rng.index(2);
    lent.table = lent.table.repeat(times);
    let needed = step.needed * times;
    lent.buffer = vec![7; *rng.pick(&[lent.table.len(), needed, needed.saturating_sub(1)])];
    if let RowCall::Update { n, .. } = &mut call {
        *n += step.needed / width * rng.index(times);
    }
    Some((call, lent))
}

#[test]
fn maps() {
    for seed in 0..1_000 {
        each_map_call(Edition::One, seed, 40, |step| {
            if !is_known(step.image) {
                return;
            }
            let (image, call, mut lent) = (step.image, &step.call, step.lent.clone());
            let answer = match call {
                MapCall::Make => calls::map(image, &lent.session, &mut lent.buffer),
                MapCall::Judge(map) => calls::judge_map(image, &lent.session, map),
                MapCall::Read(_) => panic!("no rows are read here"),
            };
            assert_eq!(answer, step.answer, "seed {seed}: {call:?}");
            assert!(lent == step.after, "seed {seed}: {call:?}");
        });
    }
}
