//! The vectors in `vectors/*.txt`: one case a line, with answers from outside. `vectors/README.md`
//! tells their form.

mod asked;
mod images;
mod label_text;
mod parts;
mod requests;
mod sessions;
mod two_labels;
mod users;

pub use asked::Asked;
pub use images::{images, ImageCase};
pub use label_text::{label_text, Expected};
pub use parts::{cases_of_the_sample, rows_in_release, rows_of_the_guide};
pub use requests::{requests, Waiting};
pub use sessions::{opened, sessions, Case, Section};
pub use two_labels::{two_labels, PairCase};

use crate::builder::{Component, Label, Policy, Set, Variant};
use crate::ffi::Answer;

/// The first word of a line, and the rest.
fn first_word(line: &'static str) -> (&'static str, &'static str) {
    line.split_once(' ').expect("a word, a blank and more")
}

/// A case's question and its answer.
fn question_and_answer(case: &'static str) -> (&'static str, &'static str) {
    case.split_once(" = ").expect("a question = an answer")
}

/// Three classes, each with names and their numbers. Places go by the numbers.
fn read_policy(Variant { edition, profile }: Variant, text: &str) -> Policy {
    let mut classes = text.split(';').map(read_class);
    let mut next = || classes.next().expect("three classes");
    let policy = Policy {
        edition,
        profile,
        levels: next(),
        compartments: next(),
        groups: next(),
        labels: Vec::new(),
        users: Vec::new(),
    };
    assert!(classes.next().is_none(), "three classes");
    policy
}

/// Names with numbers; NAME<PARENT is a group under another.
fn read_class(text: &str) -> Vec<Component> {
    let words: Vec<&str> = text.split_whitespace().collect();
    let mut class: Vec<(Component, Option<String>)> =
        words.chunks(2).flat_map(read_components).collect();
    class.sort_by_key(|(component, _)| component.number);
    let names: Vec<String> = class.iter().map(|(it, _)| it.name.clone()).collect();
    let place = |name: String| names.iter().position(|other| *other == name);
    let with_parent = |(component, parent): (Component, Option<String>)| Component {
        parent: parent.map(|name| place(name).expect("the parent is a group") as u16),
        ..component
    };
    class.into_iter().map(with_parent).collect()
}

/// A word and a number: a component or several, each with the name of its parent.
fn read_components(pair: &[&str]) -> Vec<(Component, Option<String>)> {
    let (names, parent) = match pair[0].split_once('<') {
        Some((names, parent)) => (read_names(names), Some(parent)),
        None => (read_names(pair[0]), None),
    };
    let first: u16 = pair[1].parse().expect("a numeric form");
    let parent_of = |at: usize| match parent? {
        "-" => at.checked_sub(1).map(|before| names[before].clone()),
        "+" => names.get(at + 1).cloned(),
        parent => Some(parent.to_string()),
    };
    let component = |at: usize| Component {
        name: names[at].clone(),
        number: first + at as u16,
        parent: None,
    };
    let places = 0..names.len();
    places.map(|at| (component(at), parent_of(at))).collect()
}

/// One name, or all from G3 to G9 for G3..G9.
fn read_names(text: &str) -> Vec<String> {
    let Some((first, last)) = text.split_once("..") else {
        return vec![text.to_string()];
    };
    let letters = first.trim_end_matches(|it: char| it.is_ascii_digit());
    let [first, last] = [first, last].map(|name| {
        let number = name.strip_prefix(letters).and_then(|it| it.parse().ok());
        number.expect("two names with numbers")
    });
    let numbers = first..=last;
    numbers.map(|it: usize| format!("{letters}{it}")).collect()
}

/// The label of a text that is one. Its tag is 0.
fn read_label(policy: &Policy, text: &str) -> Label {
    let (level, sets) = text.split_once(':').unwrap_or((text, ""));
    let (compartments, groups) = read_sets(policy, sets);
    Label {
        tag: 0,
        level: place_of(&policy.levels, level) as u8,
        compartments,
        groups,
    }
}

/// Two sets, as COMPARTMENTS:GROUPS or COMPARTMENTS; either may be empty.
fn read_sets(policy: &Policy, text: &str) -> (Set, Set) {
    let (compartments, groups) = text.split_once(':').unwrap_or((text, ""));
    let set = |class: &[Component], list: &str| -> Set {
        let names = list.split(',').filter(|name| !name.is_empty());
        names.map(|name| place_of(class, name)).collect()
    };
    let compartments = set(&policy.compartments, compartments);
    (compartments, set(&policy.groups, groups))
}

fn place_of(class: &[Component], name: &str) -> usize {
    let place = class.iter().position(|component| component.name == name);
    place.unwrap_or_else(|| panic!("no {name} in its class"))
}

/// The refusal that NUMBER, NUMBER@PLACE or NUMBER@BLOCK.RECORD stands for.
fn read_refusal(text: &str) -> Option<Answer> {
    let (number, place) = text.split_once('@').unwrap_or((text, "0"));
    let (block, record) = place.split_once('.').unwrap_or(("0", place));
    let [block, record] = [block, record].map(|it| it.parse::<u32>().ok());
    Some(Answer::Refused {
        number: number.parse().ok()?,
        place: block? * 65_536 + record?,
    })
}

/// Yes or no as an answer.
fn read_verdict(text: &str) -> Option<Answer> {
    match text {
        "yes" => Some(Answer::Done(1)),
        "no" => Some(Answer::Done(0)),
        _ => None,
    }
}
