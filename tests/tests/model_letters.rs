//! The model of small letters in label text (request R-9) by itself.

use brawnesk_tests::builder::{to_image, Edition, Variant};
use brawnesk_tests::compare::{expected, Tally};
use brawnesk_tests::ffi::{Answer, LABEL};
use brawnesk_tests::model::{parse, print, Label};
use brawnesk_tests::rng::Rng;
use brawnesk_tests::spelling::{by_hand, Spelling};
use brawnesk_tests::texts;
use brawnesk_tests::{in_each_edition, in_each_variant};

in_each_edition! {
    every_byte_of_a_name
    every_two_letters
    names_of_30_and_31_bytes
}

in_each_variant! {
    texts_in_other_letters_are_read_alike
    a_printed_text_in_other_letters
}

fn by_model(image: &[u8], text: &[u8]) -> (Answer, [u8; LABEL]) {
    let label = parse(image, text);
    let bytes = label.as_ref().map_or(by_hand::UNREAD, Label::to_bytes);
    (expected(label.map(|_| 0)), bytes)
}

fn every_byte_of_a_name(edition: Edition) {
    by_hand::every_byte_of_a_name(edition, &by_model);
}

fn every_two_letters(edition: Edition) {
    by_hand::every_two_letters(edition, &by_model);
}

fn names_of_30_and_31_bytes(edition: Edition) {
    by_hand::names_of_30_and_31_bytes(edition, &by_model);
}

fn texts_in_other_letters_are_read_alike(variant: Variant) {
    let mut tally = Tally::default();
    for seed in 0..300 {
        let mut rng = Rng::new(seed);
        let policy = texts::policy(variant, &mut rng);
        let image = to_image(&policy);
        for _ in 0..10 {
            let text = texts::text(&policy, &mut rng);
            let answer = by_model(&image, &text);
            for spelling in Spelling::ALL {
                let other = spelling.of(&text, &mut rng);
                let shown = other.escape_ascii();
                assert_eq!(by_model(&image, &other), answer, "seed {seed}: {shown}");
            }
            tally.add(answer.0);
        }
    }
    println!("{tally:?}");
    tally.assert_least(&[(0, 500), (5, 500), (6, 400), (7, 80)]);
}

/// It is read as the same label, whose text is the printed one again.
fn a_printed_text_in_other_letters(variant: Variant) {
    for seed in 0..500 {
        let mut rng = Rng::new(seed);
        let policy = texts::policy(variant, &mut rng);
        let image = to_image(&policy);
        let label = Label::read(&texts::label(&policy, &mut rng));
        let text = print(&image, &label).expect("the policy has all that the label names");
        for spelling in Spelling::ALL {
            let read = parse(&image, &spelling.of(&text, &mut rng)).expect("a label");
            assert_eq!(read, label, "seed {seed}");
            assert_eq!(print(&image, &read).as_ref(), Ok(&text), "seed {seed}");
        }
    }
}
