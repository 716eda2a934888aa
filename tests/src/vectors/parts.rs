//! The files of vectors, part by part.

use super::users::{read_tagged, read_user};
use super::{first_word, read_policy};
use crate::builder::{Edition, Policy, Profile, Variant};
use std::collections::BTreeSet;

/// All files that are run. The sample's comes last.
const FILES: [&str; 14] = [
    include_str!("../../vectors/reading.txt"),
    include_str!("../../vectors/privileges.txt"),
    include_str!("../../vectors/writing.txt"),
    include_str!("../../vectors/sessions.txt"),
    include_str!("../../vectors/label_text.txt"),
    include_str!("../../vectors/numbers.txt"),
    include_str!("../../vectors/two_labels.txt"),
    include_str!("../../vectors/relabelling.txt"),
    include_str!("../../vectors/inverse_groups.txt"),
    include_str!("../../vectors/places.txt"),
    include_str!("../../vectors/edition_2.txt"),
    include_str!("../../vectors/release.txt"),
    include_str!("../../vectors/release_sessions.txt"),
    SAMPLE,
];

const SAMPLE: &str = include_str!("../../vectors/cooperative.txt");

/// A policy with its users and labels, and the cases on it.
pub struct Part {
    pub policy: Policy,
    pub cases: Vec<&'static str>,
    /// The profile and the editions in which the cases hold.
    profile: Profile,
    editions: &'static [Edition],
}

/// What a case asks for.
#[derive(Clone, Copy, PartialEq, Eq)]
pub enum Form {
    Check,
    LabelText,
    Session,
    TwoLabels,
}

/// Each case has one form, so it is run.
fn form(case: &str) -> Form {
    let words: Vec<&str> = case.split(' ').collect();
    match words[..] {
        _ if case.contains("==") || case.contains('!') => Form::LabelText,
        [_, "check", ..] => Form::Check,
        [_, _, "open" | "label" | "row" | "read" | "write" | "update", ..] => Form::Session,
        _ => Form::TwoLabels,
    }
}

/// The parts that have cases of a form in an edition and a profile, with these cases alone. Their policies are
/// of that edition and profile.
pub fn parts_with(Variant { edition, profile }: Variant, asked: Form) -> Vec<Part> {
    let mut parts = parts();
    parts.retain(|part| part.profile == profile && part.editions.contains(&edition));
    for part in &mut parts {
        part.policy.edition = edition;
        part.cases.retain(|case| form(case) == asked);
    }
    parts.retain(|part| !part.cases.is_empty());
    parts
}

/// The parts of all files. No id comes twice.
fn parts() -> Vec<Part> {
    let parts: Vec<Part> = FILES.into_iter().flat_map(parts_of).collect();
    let mut ids = BTreeSet::new();
    for case in parts.iter().flat_map(|part| &part.cases) {
        assert!(ids.insert(first_word(case).0), "twice: {case}");
    }
    parts
}

/// A file without any part is a mistake, and so is a policy without cases.
fn parts_of(file: &'static str) -> Vec<Part> {
    let mut parts: Vec<Part> = Vec::new();
    for line in lines_that_say(file) {
        let (word, rest) = first_word(line);
        if let Some((profile, editions)) = read_variants(word) {
            parts.push(Part {
                policy: read_policy(editions[0].of(profile), rest),
                cases: Vec::new(),
                profile,
                editions,
            });
            continue;
        }
        let Part { policy, cases, .. } = parts.last_mut().expect("a policy first");
        match word {
            "user" => policy.users.push(read_user(policy, rest)),
            "label" => policy.labels.push(read_tagged(policy, rest)),
            _ => cases.push(line),
        }
    }
    assert!(!parts.is_empty(), "a file without vectors");
    for Part { policy, cases, .. } in &mut parts {
        assert!(!cases.is_empty(), "a policy without cases");
        policy.users.sort_by_key(|user| user.name.clone());
        policy.labels.sort_by_key(|label| label.tag);
    }
    parts
}

/// The word before a policy tells the profile and the editions in which its cases hold.
fn read_variants(word: &str) -> Option<(Profile, &'static [Edition])> {
    let (word, editions) = match word.split_once('-') {
        None => (word, &Edition::ALL[..]),
        Some((word, "1")) => (word, &Edition::ALL[..1]),
        Some((word, "2")) => (word, &Edition::ALL[1..]),
        _ => return None,
    };
    match word {
        "policy" => Some((Profile::Tree, editions)),
        "release" => Some((Profile::Release, editions)),
        _ => None,
    }
}

/// Lines that are neither empty nor comments.
pub fn lines_that_say(file: &'static str) -> impl Iterator<Item = &'static str> {
    let says = |line: &&str| !line.is_empty() && !line.starts_with('#');
    file.lines().filter(says)
}

/// The rows of the worked examples that stand as cases: n for an id Gn.m.
pub fn rows_of_the_guide() -> BTreeSet<u32> {
    numbers_after('G', parts())
}

/// The same of cases in the release profile.
pub fn rows_in_release() -> BTreeSet<u32> {
    let parts = parts().into_iter();
    let of_release = parts.filter(|part| part.profile == Profile::Release);
    numbers_after('G', of_release.collect())
}

/// The cases of document 01 that stand in the sample's file: n for an id Pn.m.
pub fn cases_of_the_sample() -> BTreeSet<u32> {
    numbers_after('P', parts_of(SAMPLE))
}

fn numbers_after(letter: char, parts: Vec<Part>) -> BTreeSet<u32> {
    let cases = parts.into_iter().flat_map(|part| part.cases);
    let number = |case| {
        let (row, _) = first_word(case).0.split_once('.')?;
        row.strip_prefix(letter)?.parse().ok()
    };
    cases.filter_map(number).collect()
}
