//! The plain calls against the model.

use super::calls;
use super::policy::Policy;
use brawnesk_tests::builder::{to_image, Edition, Profile};
use brawnesk_tests::calls::{Call, PairCall};
use brawnesk_tests::cases::Case;
use brawnesk_tests::compare::{expected, written};
use brawnesk_tests::ffi::{Answer, LABEL};
use brawnesk_tests::model::Kind;
use brawnesk_tests::rng::Rng;
use brawnesk_tests::writing::WriteCase;
use brawnesk_tests::{model, pairs, texts, walk};

/// Some damaged images of edition 1 bear the number of edition 2 or of the release profile, which the plain
/// version doesn't know: it refuses the header, and the model goes on to the records.
pub fn is_known(image: &[u8]) -> bool {
    let is_two = image.get(4) == Some(&Edition::Two.number());
    let is_release = image.get(12) == Some(&Profile::Release.number());
    !is_two && !is_release
}

#[test]
fn checks() {
    let mut unknown = 0;
    for seed in 0..8_000 {
        let Case { kind, image, .. } = Case::new(Edition::One, seed);
        if !is_known(&image) {
            unknown += 1;
            continue;
        }
        let answer = Policy::accepted(&image).map(|_| ());
        assert_eq!(answer, model::check(&image), "{kind:?}, seed {seed}");
    }
    assert!(unknown < 400, "{unknown}");
}

#[test]
fn names() {
    for seed in 0..400 {
        let image = Case::new(Edition::One, seed).image;
        if !is_known(&image) {
            continue;
        }
        let mut rng = Rng::new(!seed);
        for _ in 0..4 {
            let (class, place) = (rng.range(0, 4) as u8, rng.range(0, 12) as u8);
            let span = model::name(&image, class, place);
            let wanted = expected(span.map(|(at, length)| (at + 65_536 * length) as u64));
            let answer = calls::name(&image, class, place);
            assert_eq!(answer, wanted, "seed {seed}: {class} {place}");
        }
    }
}

#[test]
fn texts_both_ways() {
    for seed in 0..500 {
        let mut rng = Rng::new(seed);
        let policy = texts::policy(Edition::One, &mut rng);
        let image = to_image(&policy);
        for _ in 0..10 {
            parse_agrees(&image, &texts::text(&policy, &mut rng), seed);
            let label = match rng.once_in(3) {
                true => texts::label_past(&policy, &mut rng),
                false => texts::label(&policy, &mut rng),
            };
            print_agrees(&image, &label, rng.range(0, 400), seed);
        }
    }
}

fn parse_agrees(image: &[u8], text: &[u8], seed: u64) {
    let result = model::parse(image, text);
    let wanted = result.as_ref().map_or([7; LABEL], model::Label::to_bytes);
    let mut label = [7; LABEL];
    let answer = calls::parse(image, text, &mut label);
    assert_eq!(answer, expected(result.map(|_| 0)), "seed {seed}: {text:?}");
    assert_eq!(label, wanted, "seed {seed}: {text:?}");
}

fn print_agrees(image: &[u8], label: &[u8; LABEL], room: usize, seed: u64) {
    let result = model::print_within(image, &model::Label::read(label), room);
    let mut wanted = vec![b'#'; room];
    if let Ok(text) = &result {
        wanted[..text.len()].copy_from_slice(text);
    }
    let mut out = vec![b'#'; room];
    let answer = calls::print(image, label, &mut out);
    let length = expected(result.map(|text| text.len() as u64));
    assert_eq!((answer, out), (length, wanted), "seed {seed}: {label:?}");
}

#[test]
fn sessions_and_verdicts() {
    for seed in 0..1_000 {
        walk::each_call(Edition::One, seed, 100, |step| {
            if !is_known(step.image) {
                return;
            }
            let mut session = step.lent;
            let answer = match &step.call {
                Call::Open(name) => calls::open(step.image, name, &mut session),
                Call::SetLabel(text) => calls::set_label(step.image, &mut session, text),
                Call::SetRowLabel(text) => calls::set_row_label(step.image, &mut session, text),
                Call::MayRead(tag) => calls::may_read(step.image, &session, *tag),
                Call::MayWrite(tag) => calls::may_write(step.image, &session, *tag),
            };
            let (call, lent) = (&step.call, &step.lent);
            assert_eq!(answer, step.answer, "seed {seed}: {call:?} on {lent:?}");
            assert_eq!(session, step.session, "seed {seed}: {call:?} on {lent:?}");
        });
    }
}

#[test]
fn dominance() {
    for seed in 0..500 {
        pairs::each_pair(Edition::One, seed, 40, |step| {
            if step.call == PairCall::Dominates && is_known(step.image) {
                let (image, [first, second]) = (step.image, &step.pair);
                let answer = calls::dominates(image, first, second);
                assert_eq!(answer, step.answer, "seed {seed}: {first:?}, {second:?}");
            }
        });
    }
}

#[test]
fn merging() {
    let no_image = model::accepted(&[]);
    for seed in 0..2_000 {
        let mut rng = Rng::new(seed);
        let pair = pairs::pair(&mut rng);
        let [first, second] = &pair;
        for call in pairs::merges(&mut rng) {
            let PairCall::Merge(letters) = &call else {
                continue;
            };
            let (mut out, mut wanted) = ([7; LABEL], [7; LABEL]);
            let answer = calls::merge(first, second, letters, &mut out);
            let by_model = call.by_model(&no_image, &pair, &mut wanted);
            assert_eq!(answer, by_model, "seed {seed}: {call:?} of {pair:?}");
            assert_eq!(out, wanted, "seed {seed}: {call:?} of {pair:?}");
        }
    }
}

/// Records that are told to be of another edition or profile are not asked about.
#[test]
fn writing() {
    let (mut unknown, mut done) = (0, 0);
    for seed in 0..4_000 {
        let case = WriteCase::new(Edition::One.tree(), seed);
        if case.lists.edition == 2 || case.lists.profile == 1 {
            unknown += 1;
            continue;
        }
        let mut out = case.buffer.clone();
        let answer = calls::write(&case.lists.lent(), &mut out);
        assert_eq!(answer, case.answer, "{:?}, seed {seed}", case.kind);
        assert!(out == case.after, "{:?}, seed {seed}", case.kind);
        done += u32::from(matches!(answer, Answer::Done(_)));
    }
    assert!(unknown < 400 && done > 200, "{unknown} {done}");
}

#[test]
fn taking_apart() {
    for seed in 0..1_000 {
        let image = Case::new(Edition::One, seed).image;
        if !is_known(&image) {
            continue;
        }
        let room = Rng::new(!seed).range(0, image.len());
        for (kind, ask) in Kind::ALL.into_iter().zip(RECORDS) {
            let (mut out, before) = (vec![b'#'; room], vec![b'#'; room]);
            let answer = ask(&image, &mut out);
            let wanted = written(model::records_of(&image, kind, room), &before);
            assert!((answer, out) == wanted, "seed {seed}: {kind:?}");
        }
    }
}

const RECORDS: [fn(&[u8], &mut [u8]) -> Answer; 3] = [
    calls::component_records,
    calls::label_records,
    calls::user_records,
];
