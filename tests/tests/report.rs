//! The compiled program `report` against the model.
//!
//! A wrong report names its seed; `BRAWNESK_SEED=<seed> cargo test --release` compares that input
//! alone.

use brawnesk_tests::builder::layout::{seal, BLOCK};
use brawnesk_tests::builder::{full, put, random, random_with, sample, to_image};
use brawnesk_tests::builder::{Edition, Profile, Set, Sizes, Tree, Variant};
use brawnesk_tests::cases::Case;
use brawnesk_tests::compare::{of_images, seeds};
use brawnesk_tests::model;
use brawnesk_tests::program::report;
use brawnesk_tests::rng::Rng;
use brawnesk_tests::{in_each_edition, in_each_variant};
use std::collections::BTreeMap;
use std::fs::File;
use std::process::Command;
use std::time::{Duration, Instant};

/// In each edition and profile.
const CASES: u64 = 800;

/// More lines than these are not all asked of the model, which is slow.
const MANY: usize = 20_000;

in_each_variant! {
    the_program_agrees_with_the_model
    input_past_the_buffer_is_refused
    the_largest_places
    the_largest_report_is_quick
}

in_each_edition! {
    the_samples_report_is_the_documents
    refused_images_give_one_line
    lines_of_every_length
}

/// Inputs by seed: well-formed images, images of all kinds, and some of these with more bytes after
/// them: just as many as the buffer has, one more, and far more.
fn input(variant: Variant, seed: u64) -> Vec<u8> {
    let mut rng = Rng::new(!seed);
    if rng.once_in(4) {
        return to_image(&random(Sizes::medium(variant, &mut rng), &mut rng));
    }
    let mut image = Case::new(variant, seed).image;
    if rng.once_in(12) {
        let length = [65_536, 65_537, 65_538, 66_048, 200_000][rng.index(5)];
        image.resize(length, rng.byte());
    }
    image
}

/// How many reports had lines, were empty, and were a refusal by its number.
#[derive(Debug, Default)]
struct Seen {
    lines: usize,
    empty: usize,
    refused: BTreeMap<String, usize>,
}

impl Seen {
    fn add(&mut self, text: &str) {
        match text.strip_prefix("refused ") {
            Some(rest) => {
                let number = rest.split_whitespace().next().unwrap_or_default();
                *self.refused.entry(number.to_string()).or_default() += 1;
            }
            None if text.is_empty() => self.empty += 1,
            None => self.lines += 1,
        }
    }
}

/// The program's report, which is the model's. Of a report of many lines those of the first, the
/// last and a middle user are compared, and how many there are.
fn compared(input: &[u8], what: &str) -> String {
    let text = String::from_utf8(report(input)).expect("a report is text");
    let lines: Vec<&str> = text.split_inclusive('\n').collect();
    if lines.len() <= MANY {
        assert_eq!(text, model::report(input), "{what}");
        return text;
    }
    let image = model::accepted(input).expect("it has lines");
    let count = |at: usize| usize::from(u16::from_le_bytes([input[at], input[at + 1]]));
    let (users, labels) = (count(8), count(10));
    assert_eq!(lines.len(), users * labels, "{what}");
    for user in [0, users / 2, users - 1] {
        let part = lines[user * labels..][..labels].concat();
        assert_eq!(part, model::lines_of(&image, user), "{what}, user {user}");
    }
    text
}

fn the_program_agrees_with_the_model(variant: Variant) {
    let mut seen = Seen::default();
    let range = seeds(0..CASES);
    let is_whole = range.end - range.start == CASES;
    for seed in range {
        seen.add(&compared(&input(variant, seed), &format!("seed {seed}")));
    }
    println!("{seen:?}");
    if is_whole {
        assert!(seen.lines >= 100 && seen.empty >= 10, "{seen:?}");
        let often = |number: &&str| seen.refused.get(*number) >= Some(&30);
        let numbers = of_images(variant.profile);
        assert!(numbers.iter().all(often), "{seen:?}");
    }
}

/// The three lines of document 01.
const LINES: &str = "MARA 10 rw\nMARA 20 --\nMARA 30 r-\n";

fn the_samples_report_is_the_documents(edition: Edition) {
    let image = to_image(&sample().in_edition(edition));
    assert_eq!(compared(&image, "the sample"), LINES);
}

/// What `rt ci` compares is the sample of edition 1 and its report.
#[test]
fn the_programs_files_are_the_samples() {
    let folder = concat!(env!("CARGO_MANIFEST_DIR"), "/../crates/report");
    let read =
        |file: &str| std::fs::read(format!("{folder}/{file}")).expect("it is in the repository");
    assert_eq!(read("stdin"), to_image(&sample()));
    assert_eq!(read("stdout"), LINES.as_bytes());
}

fn input_past_the_buffer_is_refused(variant: Variant) {
    for length in [0, 1, 511, 513, 65_535, 65_537, 66_048, 1_000_000] {
        assert_eq!(report(&vec![0; length]), b"refused 1\n", "{length} bytes");
    }
    assert_eq!(report(&[0; 65_536]), b"refused 2 at block 1\n");
    assert_eq!(report(&[0; 512]), b"refused 31\n");
    // An accepted image, and a byte more or as many zeros as the buffer takes.
    let image = to_image(&full(variant));
    assert_eq!(report(&[&image[..], &[0]].concat()), b"refused 1\n");
    assert_eq!(
        report(&[&image[..], &[0; 512]].concat()),
        b"refused 2 at block 127\n"
    );
    assert_eq!(report(&[&image[..], &[0; 513]].concat()), b"refused 1\n");
}

/// One byte in the sample and the line that is then written; the first three are the request's.
/// Block 1 holds the components, block 2 the labels and block 3 MARA.
fn refused_images_give_one_line(edition: Edition) {
    // Bit 128 of the privileges, or COMPACCESS, which edition 2 has not.
    let (second_label, unused, write_groups, privilege) = match edition {
        Edition::One => (4 + 24, 127, 80, 128),
        Edition::Two => (4 + 48, 39, 104, 4),
    };
    for (block, at, byte, line) in [
        (3, 509, 1, "refused 31\n"),
        (1, 4 + 39, 1, "refused 32 at block 1 record 0\n"),
        // DOCK, the third group, is its own parent.
        (1, 4 + 7 * 40 + 34, 2, "refused 35 at group 2\n"),
        (0, 4, 3, "refused 31\n"),
        (0, 4, edition.other().number(), "refused 31\n"),
        (1, 4 + 8 * 40 + 34, 4, "refused 32 at block 1 record 8\n"),
        (2, second_label, 10, "refused 33 at block 2 record 1\n"),
        (3, 4 + unused, 1, "refused 34 at block 3 record 0\n"),
        (3, 4 + 31, privilege, "refused 34 at block 3 record 0\n"),
        // Her write group is SOUTH, which isn't below NORTH.
        (3, 4 + write_groups, 8, "refused 34 at block 3 record 0\n"),
    ] {
        let mut image = to_image(&sample().in_edition(edition));
        image[block * BLOCK + at] = byte;
        seal(&mut image, block);
        assert_eq!(model::report(&image), line);
        assert_eq!(String::from_utf8_lossy(&report(&image)), line);
        image[block * BLOCK + 510] ^= 1;
        let line = format!("refused 2 at block {block}\n");
        assert_eq!(String::from_utf8_lossy(&report(&image)), line);
    }
}

/// Places of more than one digit, at the last record of the largest image's blocks.
fn the_largest_places(variant: Variant) {
    let policy = full(variant);
    let [components, labels, users] = policy.runs();
    for (run, number) in [(components, 32), (labels, 33), (users, 34)] {
        let at = run.at(run.count - 1);
        let mut image = to_image(&policy);
        // A name's length, or the last byte of a tag.
        image[at.offset..][..4].fill(255);
        seal(&mut image, at.block);
        let line = format!(
            "refused {number} at block {} record {}\n",
            at.block, at.record
        );
        assert_eq!(compared(&image, &line), line);
    }
    // A group without subgroups is its own parent, so it alone never ends. In the release profile it is at fault.
    let has_none = |&group: &usize| policy.below(Set::of(group)) == Set::of(group);
    let groups = 10..policy.groups.len();
    let group = groups.rev().find(has_none).expect("there are leaves");
    let at = policy.group_at(group);
    let mut image = to_image(&policy);
    put(&mut image[at.offset..][variant.edition.parent()], group);
    seal(&mut image, at.block);
    let line = match variant.profile {
        Profile::Tree => format!("refused 35 at group {group}\n"),
        Profile::Release => format!("refused 32 at block {} record {}\n", at.block, at.record),
    };
    assert_eq!(compared(&image, &line), line);
}

/// A read that fails, as of a folder, is no image: it gives no report and no refusal, and one line
/// to standard error.
#[test]
fn a_failed_read_gives_no_report() {
    let folder = File::open(env!("CARGO_MANIFEST_DIR")).expect("the folder is there");
    let program = concat!(env!("CARGO_MANIFEST_DIR"), "/../target/bin/report");
    let output = Command::new(program)
        .stdin(folder)
        .output()
        .expect("`make` builds it");
    assert_eq!(output.stdout, b"");
    assert_eq!(output.stderr, b"read failed\n");
}

/// Lines of every length, so that the buffer ends at every place of a line.
fn lines_of_every_length(edition: Edition) {
    let count = edition.most_labels();
    for length in 1..=30 {
        for tag in [1, 100_000_000 - count as u32] {
            let mut policy = sample().in_edition(edition);
            policy.users[0].name = "M".repeat(length);
            let records = policy.labels.clone();
            policy.labels = (0..count)
                .map(|place| {
                    let mut label = records[place % 3].clone();
                    label.tag = tag + place as u32;
                    label
                })
                .collect();
            compared(
                &to_image(&policy),
                &format!("names of {length} bytes, tags from {tag}"),
            );
        }
    }
}

/// All lines of the largest image, whatever its parents are, within the 2 seconds that are allowed, the
/// start of the program and a debug build of this test included.
fn the_largest_report_is_quick(variant: Variant) {
    let sizes = Sizes::full(variant);
    let lines = match variant.edition {
        Edition::One => 161_280,
        Edition::Two => 25_600,
    };
    let with = |tree| random_with(tree, sizes, &mut Rng::new(1));
    let trees = match variant.profile {
        Profile::Tree => [Tree::ParentLower, Tree::ParentHigher].map(with).to_vec(),
        Profile::Release => Vec::new(),
    };
    for policy in [full(variant)].into_iter().chain(trees) {
        let image = to_image(&policy);
        let start = Instant::now();
        let text = report(&image);
        let taken = start.elapsed();
        println!("{} bytes in {taken:?}", text.len());
        assert_eq!(text.iter().filter(|&&byte| byte == b'\n').count(), lines);
        assert!(taken < Duration::from_secs(2), "{taken:?}");
        compared(&image, "the largest image");
    }
}
