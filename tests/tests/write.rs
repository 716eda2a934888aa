//! The compiled `brawnesk_write` against the model: records up to all limits and with damage of each kind.
//!
//! A wrong answer names its seed; `BRAWNESK_SEED=<seed> cargo test --release` compares that seed alone.

use brawnesk_tests::builder::{full, random, random_with, to_image};
use brawnesk_tests::builder::{Edition, Sizes, Tree, Variant};
use brawnesk_tests::compare::{one_seed, seeds, Tally};
use brawnesk_tests::ffi::{self, Answer};
use brawnesk_tests::model::{Kind, Lent};
use brawnesk_tests::rng::Rng;
use brawnesk_tests::shifted::Shifted;
use brawnesk_tests::writing::{by_hand, by_model, Lists, WriteCase, WriteTally};
use brawnesk_tests::{in_each_edition, in_each_variant};
use std::hint::black_box;

/// In each edition and profile.
const CASES: u64 = 12_000;

in_each_variant! {
    the_library_agrees_with_the_model
    the_largest_image
    counts_around_their_limits
    every_byte_of_a_record
    alignment_does_not_matter
}

in_each_edition! {
    trees_are_written
    records_of_unknown_classes
}

/// Asks the library. The lists have to stay as they are.
fn ask(lists: &Lists, buffer: &mut [u8]) -> Answer {
    let own = lists.clone();
    let answer = ffi::write(&black_box(&own).lent(), black_box(buffer));
    assert!(*black_box(&own) == *lists, "lists changed");
    answer
}

/// Asks both. The answer and every byte of the buffer have to be the model's.
fn compare(lists: &Lists, room: usize, case: &str) -> Answer {
    let buffer = vec![0xa5; room];
    let mut given = buffer.clone();
    let answer = ask(lists, &mut given);
    let (wanted, after) = by_model(lists, &buffer);
    assert_eq!(answer, wanted, "{case}, {room} bytes");
    assert!(given == after, "{case}, {room} bytes: buffer");
    answer
}

fn refused(number: u32, place: u32) -> Answer {
    Answer::Refused { number, place }
}

fn the_library_agrees_with_the_model(variant: Variant) {
    let mut tally = WriteTally::default();
    for seed in seeds(0..CASES) {
        let case = WriteCase::new(variant, seed);
        let mut given = case.buffer.clone();
        let answer = ask(&case.lists, &mut given);
        assert_eq!(answer, case.answer, "seed {seed}: {:?}", case.kind);
        assert!(given == case.after, "seed {seed}: {:?}, buffer", case.kind);
        tally.add(&case);
    }
    println!("{tally:?}");
    if one_seed().is_none() {
        tally.assert_varied(variant, 30);
    }
}

#[test]
fn answers_by_hand() {
    by_hand::check(&ask);
}

/// As long as an image gets, in buffers around that length.
fn the_largest_image(variant: Variant) {
    const LARGEST: usize = 127 * 512;
    let policy = full(variant);
    let (lists, image) = (Lists::of(&policy), to_image(&policy));
    for room in [0, 512, LARGEST - 1, LARGEST, LARGEST + 1, 65_536, 100_000] {
        let answer = compare(&lists, room, "the largest");
        assert_eq!(answer == Answer::Done(LARGEST as u64), room >= LARGEST);
        assert_eq!(answer == refused(13, 0), room < LARGEST);
    }
    let mut buffer = vec![0xa5; LARGEST];
    ask(&lists, &mut buffer);
    assert!(buffer == image);
}

/// Each form of parents, with all groups, and then with a group that is over itself.
fn trees_are_written(edition: Edition) {
    for (seed, tree) in Tree::ALL.into_iter().enumerate() {
        let sizes = Sizes {
            labels: 3,
            users: 3,
            ..Sizes::full(edition)
        };
        let mut policy = random_with(tree, sizes, &mut Rng::new(seed as u64));
        let answer = compare(&Lists::of(&policy), 65_536, &format!("{tree:?}"));
        assert!(matches!(answer, Answer::Done(_)), "{tree:?}: {answer:?}");
        for group in [0, 1, 62, 63, sizes.groups - 2, sizes.groups - 1] {
            let parent = policy.groups[group].parent.replace(group as u16);
            let answer = compare(&Lists::of(&policy), 65_536, &format!("{tree:?}, {group}"));
            assert!(matches!(answer, Answer::Refused { number: 35, .. }));
            policy.groups[group].parent = parent;
        }
    }
}

/// The records of a policy with so many levels, compartments, groups, labels and users. Without levels those of one
/// with a level are left, and it isn't among them.
fn sized(variant: Variant, counts: [usize; 5]) -> Lists {
    let [levels, compartments, groups, labels, users] = counts;
    let sizes = Sizes {
        variant,
        levels: levels.max(1),
        compartments,
        groups,
        labels,
        users,
    };
    let mut lists = Lists::of(&random(sizes, &mut Rng::new(7)));
    if levels == 0 {
        lists.list(Kind::Component).drain(..40);
    }
    lists
}

/// Each count by itself: none, the most that there may be, one more, and so many that in one byte or in two they
/// would be few.
fn counts_around_their_limits(variant: Variant) {
    let edition = variant.edition;
    let (groups, labels, users) = (
        edition.most_groups(),
        edition.most_labels(),
        edition.most_users(),
    );
    let few = [1, 1, 2, 2, 2];
    for (which, most) in [32, 64, groups, labels, users].into_iter().enumerate() {
        for count in [0, 1, most - 1, most] {
            let mut counts = few;
            counts[which] = count;
            let answer = compare(&sized(variant, counts), 65_536, &format!("{counts:?}"));
            let is_written = matches!(answer, Answer::Done(_));
            assert_eq!(is_written, counts[0] > 0, "{counts:?}: {answer:?}");
        }
        let over = [most + 1, 256 + few[which], 65_536 + few[which]];
        for count in over.into_iter().filter(|count| *count > most) {
            let lists = with_more(&sized(variant, few), which, count);
            let answer = compare(&lists, 65_536, "too many");
            assert_eq!(answer, refused(31, 0), "{which}: {count}");
        }
    }
}

/// So many of one class or kind, by copies of the first.
fn with_more(lists: &Lists, which: usize, count: usize) -> Lists {
    let (kind, place) = match which {
        0..=2 => (Kind::Component, which),
        3 => (Kind::Label, 0),
        _ => (Kind::User, 0),
    };
    let own = match which {
        0..=2 => lists.of_class(1 + which as u8),
        _ => lists.count(kind),
    };
    let mut more = lists.clone();
    let records = lists.record(kind, place).repeat(count - own);
    more.insert(kind, place, &records);
    more
}

/// Values for a byte: ends of alphabets, of counts and of places, and turned bits.
fn values(old: u8) -> Vec<u8> {
    let fixed = [
        0, 1, 2, 3, 4, 9, 30, 31, 39, 47, 48, 58, 64, 65, 91, 95, 97, 127, 128, 254, 255,
    ];
    let turned = (0..8).map(|bit| old ^ 1 << bit);
    fixed.into_iter().chain(turned).collect()
}

/// Each byte of a record of each kind, the first, one in the midst and the last, with many values.
fn every_byte_of_a_record(variant: Variant) {
    let lists = sized(variant, [3, 3, 5, 4, 4]);
    let mut tally = Tally::default();
    for kind in Kind::ALL {
        let count = lists.count(kind);
        for place in [0, count / 2, count - 1] {
            for byte in 0..lists.size(kind) {
                let mut changed = lists.clone();
                for value in values(lists.record(kind, place)[byte]) {
                    changed.record_mut(kind, place)[byte] = value;
                    let case = format!("{kind:?} {place}, byte {byte} = {value}");
                    tally.add(compare(&changed, 4_096, &case));
                }
            }
        }
    }
    println!("{tally:?}");
    tally.assert_least(&[(0, 1_000), (32, 1_000), (33, 1_000), (34, 1_000)]);
}

/// Every edition and every profile that there isn't, and those that there are.
#[test]
fn editions_and_profiles() {
    for variant in Variant::ALL {
        let lists = Lists::of(&variant.sample());
        for number in 0..=255 {
            let told = |edition, profile| Lists {
                edition,
                profile,
                ..lists.clone()
            };
            for (told, is_known) in [
                (told(number, lists.profile), (1..=2).contains(&number)),
                (told(lists.edition, number), number <= 1),
                (told(number, number), number == 1),
            ] {
                let answer = compare(&told, 4_096, &format!("{variant:?}, {number}"));
                assert!(
                    is_known || answer == refused(31, 0),
                    "{variant:?}, {number}"
                );
            }
        }
    }
}

/// Records of each class that there isn't, before the right ones, among them and after them: a few, and more than
/// two bytes can count.
fn records_of_unknown_classes(edition: Edition) {
    let lists = Lists::of(&edition.tree().sample());
    let components = lists.count(Kind::Component);
    for class in [0, 4, 67, 128, 255] {
        for many in [1, 2, 343, 344, 400, 65_527, 65_528, 65_536, 65_537, 70_000] {
            for place in [0, 1, 4, components - 1, components] {
                let mut more = lists.clone();
                let mut record = lists.record(Kind::Component, 0).to_vec();
                record[0] = class;
                more.insert(Kind::Component, place, &record.repeat(many));
                let answer = compare(&more, 4_096, &format!("class {class}, {many} at {place}"));
                assert_eq!(answer, refused(32, place as u32));
            }
        }
    }
}

/// Lists and buffers may begin anywhere, and nothing around them changes.
fn alignment_does_not_matter(variant: Variant) {
    let policy = variant.sample();
    let (lists, image) = (Lists::of(&policy), to_image(&policy));
    for shift in 0..8 {
        let mut parts = [0, 1, 2].map(|at| Shifted::new((shift + at) % 8, &lists.lists[at]));
        let mut buffer = Shifted::new(7 - shift, &vec![0; image.len()]);
        let [components, labels, users] = &mut parts;
        let lent = Lent {
            edition: lists.edition,
            profile: lists.profile,
            lists: [components.inner(), labels.inner(), users.inner()],
        };
        let answer = ffi::write(&lent, buffer.inner());
        assert_eq!(answer, Answer::Done(image.len() as u64));
        assert!(buffer.inner() == image);
        buffer.assert_around();
        parts.iter().for_each(Shifted::assert_around);
    }
}
