//! Row calls on tables of 256 rows or more against the model. From there on the library puts the tags that are handed out
//! into slots, and asks a row by its tag alone.

use brawnesk_tests::builder::{label, sample, to_image, Edition, Variant};
use brawnesk_tests::compare::seeds;
use brawnesk_tests::ffi::{self, Answer, SESSION};
use brawnesk_tests::maps::map_of;
use brawnesk_tests::model;
use brawnesk_tests::rng::Rng;
use brawnesk_tests::row_calls::{Lent, RowCall};
use brawnesk_tests::tables::numbers::bytes;
use brawnesk_tests::tables::{each_row_call, row, Step};
use brawnesk_tests::{in_each_edition, in_each_variant};

in_each_variant! {
    tables_of_many_rows
}

in_each_edition! {
    many_widths
    tags_that_find_no_slot
}

/// From so many rows on tags are put into slots.
const MANY: usize = 256;

/// Asks both. The answer and every lent byte have to be the model's.
fn compare(image: &[u8], call: &RowCall, lent: &Lent, case: &str) -> Answer {
    let (mut given, mut wanted) = (lent.clone(), lent.clone());
    let answer = call.by_library(image, &mut given);
    let expected = call.by_model(&model::accepted(image), &mut wanted);
    assert_eq!(answer, expected, "{case}: {call:?}");
    assert_eq!(given.difference(&wanted), None, "{case}: {call:?}");
    answer
}

/// The calls of random policies, on tables that have the rows of theirs several times.
fn tables_of_many_rows(variant: Variant) {
    let (mut reads, mut updates) = (0, 0);
    for seed in seeds(0..400) {
        let mut rng = Rng::new(!seed);
        each_row_call(variant, seed, 20, |step| {
            let Some((call, lent)) = repeated(step, &mut rng) else {
                return;
            };
            let answer = compare(step.image, &call, &lent, &format!("seed {seed}"));
            match (&call, answer) {
                (RowCall::Update { n, .. }, Answer::Done(_)) if *n >= MANY => updates += 1,
                (RowCall::Read { .. } | RowCall::ReadMapped { .. }, Answer::Done(1..)) => {
                    reads += 1
                }
                _ => (),
            }
        });
    }
    assert!(
        reads > 300 && updates > 20,
        "{reads} reads, {updates} updates"
    );
}

/// Nothing for a table that isn't whole rows or has none.
fn repeated(step: &Step, rng: &mut Rng) -> Option<(RowCall, Lent)> {
    let (mut call, mut lent) = (step.call.clone(), step.lent.clone());
    let (width, length) = (call.width(), lent.table.len());
    let is_whole = (5..=512).contains(&width) && length.is_multiple_of(width);
    if !is_whole || !(width..width * MANY).contains(&length) {
        return None;
    }
    let times = (2 * MANY * width).div_ceil(length) + rng.index(3);
    lent.table = lent.table.repeat(times);
    let needed = step.needed * times;
    let room = *rng.pick(&[lent.table.len(), needed, needed.saturating_sub(1)]);
    lent.buffer = bytes(room, rng);
    if let RowCall::Update { n, .. } = &mut call {
        *n += step.needed / width * rng.index(times);
    }
    Some((call, lent))
}

/// MARA's session, rows of these tags, and a buffer of random bytes that holds them all.
fn maras(image: &[u8], tags: &[u32], width: usize) -> Lent {
    let mut rng = Rng::new(width as u64);
    let mut session = [0; SESSION];
    assert_eq!(ffi::open(image, b"MARA", &mut session), Answer::Done(0));
    let rows = tags.iter().map(|&tag| row(tag, width, &mut rng));
    let table = rows.collect::<Vec<_>>().concat();
    let buffer = bytes(table.len(), &mut rng);
    Lent {
        session,
        table,
        buffer,
    }
}

/// A plain read, a mapped read, and updates of the first rows, of some from 256 on and of one too many.
fn calls(image: &[u8], lent: &Lent, width: usize, readable: usize) -> Vec<RowCall> {
    let own = model::accepted(image).expect("the policy is well-formed");
    let map = map_of(&own, &lent.session).expect("the session is right");
    let update = |n| RowCall::Update {
        width,
        n,
        payload: vec![7; width - 4],
    };
    let places = [0, 1, MANY - 1, MANY, readable - 1, readable];
    let mut calls: Vec<_> = places.map(update).into();
    calls.extend([RowCall::Read { width }, RowCall::ReadMapped { width, map }]);
    calls
}

/// Widths up to 80, around multiples of 32, and the highest. Tags are known and readable, known and hidden, and unknown, the
/// lowest and the highest among them. The buffer holds the whole table, just the readable rows, or a byte less.
fn many_widths(edition: Edition) {
    let image = to_image(&sample().in_edition(edition));
    let tags: Vec<u32> = [10, 20, 30, 0, 10, 31, 30, u32::MAX, 10, 99_999_999].repeat(60);
    let readable = 5 * 60;
    for width in (5..=80).chain([95, 96, 97, 104, 105, 127, 128, 129, 255, 256, 257, 511, 512]) {
        let lent = maras(&image, &tags, width);
        for call in calls(&image, &lent, width, readable) {
            for room in [lent.table.len(), readable * width, readable * width - 1] {
                let mut lent = lent.clone();
                lent.buffer.truncate(room);
                let answer = compare(&image, &call, &lent, &format!("room {room}"));
                if room == lent.table.len() && call.hands_out() {
                    assert_eq!(answer, Answer::Done(readable as u64), "{call:?}");
                }
            }
        }
    }
}

/// Multiples of 46,368 are not spread over the slots: after 96 of them the next finds no free one.
fn tags_that_find_no_slot(edition: Edition) {
    for count in [96, 97, 300, 800] {
        let mut policy = sample().in_edition(edition);
        policy.labels = (1..=count)
            .map(|place| {
                label(
                    46_368 * place,
                    if place > 97 && place % 3 == 0 { 2 } else { 0 },
                    0,
                    0,
                )
            })
            .collect();
        let image = to_image(&policy);
        let tags: Vec<u32> = (0..900)
            .map(|place| 46_368 * (place % (count + 3)))
            .collect();
        let lent = maras(&image, &tags, 12);
        let own = model::accepted(&image).expect("the policy is well-formed");
        let session = model::Session::read(&lent.session);
        let readable =
            model::read(&own, &session, &lent.table, 12, usize::MAX).map_or(0, |rows| rows.len());
        assert!(readable > 500, "{count} labels: {readable}");
        for call in calls(&image, &lent, 12, readable) {
            compare(&image, &call, &lent, &format!("{count} labels"));
        }
    }
}
