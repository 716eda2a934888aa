//! Writes the image of the sample co-operative to standard output; with the argument `partners` that of the
//! co-operative with partner stores, with `partners table` its table, with `full` the largest image, with
//! `full release` the largest of the release profile; and with the argument `2` an image of edition 2.

use brawnesk_tests::builder::{full, partners, partners_table, sample, to_image};
use brawnesk_tests::builder::{Edition, Profile};
use std::collections::BTreeSet;
use std::io::{self, Write};

const USAGE: &str = "usage: sample_image [2] [partners [table] | full [release]]";

fn main() -> io::Result<()> {
    let mut told: BTreeSet<String> = std::env::args().skip(1).collect();
    let edition = match told.remove("2") {
        true => Edition::Two,
        false => Edition::One,
    };
    let words: Vec<&str> = told.iter().map(String::as_str).collect();
    let bytes = match words[..] {
        [] => to_image(&sample().in_edition(edition)),
        ["partners"] => to_image(&partners().in_edition(edition)),
        ["partners", "table"] => partners_table(),
        ["full"] => to_image(&full(edition)),
        ["full", "release"] => to_image(&full(edition.of(Profile::Release))),
        _ => {
            eprintln!("{USAGE}");
            std::process::exit(2);
        }
    };
    io::stdout().write_all(&bytes)
}
