//! What small letters in label text (request R-9) leave as it was, in the compiled calls: user names, the names of
//! images, and merge letters.
//!
//! A wrong answer names its seed; `BRAWNESK_SEED=<seed> cargo test --release` compares that seed alone.

use brawnesk_tests::builder::{to_image, Variant};
use brawnesk_tests::compare::{expected, one_seed, seeds, Tally};
use brawnesk_tests::damage::{Damage, Draft};
use brawnesk_tests::ffi::{self, Answer, LABEL, SESSION};
use brawnesk_tests::in_each_variant;
use brawnesk_tests::model::Refusal;
use brawnesk_tests::rng::Rng;
use brawnesk_tests::spelling::others;
use brawnesk_tests::texts;
use brawnesk_tests::walk;

const POLICIES: u64 = 1_000;

in_each_variant! {
    user_names_stay_exact
    images_have_capitals_only
}

/// Asks that answers came at least so often, where all seeds were compared.
fn assert_least(tally: &Tally, least: &[(u32, usize)]) {
    println!("{tally:?}");
    if one_seed().is_none() {
        tally.assert_least(least);
    }
}

/// A user's name is matched byte for byte: in other letters it is nobody's.
fn user_names_stay_exact(variant: Variant) {
    let unopened = [0xa5; SESSION];
    let mut tally = Tally::default();
    for seed in seeds(0..POLICIES) {
        let mut rng = Rng::new(seed);
        let policy = walk::policy(variant, &mut rng);
        let image = to_image(&policy);
        for user in policy.users.iter().take(6) {
            let name = user.name.as_bytes();
            let answer = ffi::open(&image, name, &mut unopened.clone());
            assert_eq!(answer, Answer::Done(0), "seed {seed}: {}", user.name);
            for other in others(name, &mut rng) {
                let mut session = unopened;
                let answer = ffi::open(&image, &other, &mut session);
                let given = (answer, session);
                let wanted = (expected(Err(Refusal::User)), unopened);
                assert_eq!(given, wanted, "seed {seed}: {}", other.escape_ascii());
                tally.add(answer);
            }
        }
    }
    assert_least(&tally, &[(4, 2_500)]);
}

/// A small letter in the name of a component or a user is a fault of that record: to the check, a parse, a print, an
/// opening and both label changes.
fn images_have_capitals_only(variant: Variant) {
    let mut tally = Tally::default();
    for seed in seeds(0..POLICIES) {
        let mut rng = Rng::new(seed);
        let policy = texts::policy(variant, &mut rng);
        for damage in [Damage::NameSmall, Damage::UserNameSmall] {
            let mut draft = Draft::new(policy.clone());
            let Some(told) = damage.apply(&mut draft, &mut rng) else {
                continue;
            };
            let refused = expected(Err(told.refusal()));
            let (image, text) = (&draft.image, texts::text(&policy, &mut rng));
            let (mut label, mut session) = ([0; LABEL], [0; SESSION]);
            let answers = [
                ffi::check(image),
                ffi::parse(image, &text, &mut label),
                ffi::print(image, &label, &mut []),
                ffi::open(image, &text, &mut session),
                ffi::set_label(image, &mut session, &text),
                ffi::set_row_label(image, &mut session, &text),
            ];
            assert_eq!(answers, [refused; 6], "seed {seed}: {damage:?}");
            tally.add(refused);
        }
    }
    assert_least(&tally, &[(32, 900), (34, 500)]);
}

/// Merge letters are no label text: of all ways to write them in capitals and small letters only capitals are done.
#[test]
fn merge_letters_stay_capitals() {
    let label = [0; LABEL];
    let mut out = label;
    for [level, first, second] in all_letters() {
        for small in 0..8 {
            let letter = |at: u8, byte: u8| byte + 32 * (small >> at & 1);
            let letters = [letter(0, level), letter(1, first), letter(2, second)];
            let answer = ffi::merge(&label, &label, &letters, &mut out);
            let wanted = match small {
                0 => Answer::Done(0),
                _ => expected(Err(Refusal::Letters)),
            };
            assert_eq!(answer, wanted, "{}", letters.escape_ascii());
        }
    }
}

/// Every three letters that are allowed.
fn all_letters() -> Vec<[u8; 3]> {
    let mut all = Vec::new();
    for level in *b"HL" {
        for first in *b"UIMN" {
            all.extend(b"UIMN".map(|second| [level, first, second]));
        }
    }
    all
}
