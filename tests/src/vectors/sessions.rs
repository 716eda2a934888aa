//! The vectors of sessions, verdicts and updates.

use super::asked::Asked;
use super::parts::{parts_with, Form, Part};
use super::{first_word, question_and_answer, read_label, read_refusal, read_verdict};
use crate::builder::{to_image, Label, Policy, Variant};
use crate::calls::Call;
use crate::ffi::{Answer, SESSION};

/// Rows that are given by their label get tags from here on.
const ROW_TAGS: u32 = 50_000_000;

/// What a session holds before it is opened.
const UNOPENED: [u8; SESSION] = [0xa5; SESSION];

/// A policy and the cases on it.
pub struct Section {
    pub policy: Policy,
    pub image: Vec<u8>,
    pub cases: Vec<Case>,
}

pub struct Case {
    /// The line, for a wrong answer.
    pub line: &'static str,
    steps: Vec<Step>,
}

/// A call, its answer, and the session after it.
struct Step {
    call: Asked,
    answer: Answer,
    session: [u8; SESSION],
}

impl Case {
    /// Asks that each call gives its answer and leaves the session as expected.
    pub fn run(&self, mut ask: impl FnMut(&Asked, &mut [u8; SESSION]) -> Answer) {
        let mut session = UNOPENED;
        for Step {
            call,
            answer,
            session: after,
        } in &self.steps
        {
            assert_eq!(ask(call, &mut session), *answer, "{}: {call:?}", self.line);
            assert_eq!(session, *after, "{}: session after {call:?}", self.line);
        }
    }
}

/// All sections of an edition and a profile. Every line is used: each user is asked by a case, and each label by
/// its tag.
pub fn sessions(variant: Variant) -> Vec<Section> {
    let parts = parts_with(variant, Form::Session).into_iter();
    parts.map(read_section).collect()
}

/// The policy gets a label for each row that is given by its label.
fn read_section(part: Part) -> Section {
    let mut policy = part.policy;
    let tagged = policy.labels.len();
    let read = |line| read_case(&mut policy, line);
    let cases: Vec<Case> = part.cases.into_iter().map(read).collect();
    assert_all_asked(&policy, tagged, &cases);
    policy.labels.sort_by_key(|label| label.tag);
    Section {
        image: to_image(&policy),
        policy,
        cases,
    }
}

fn assert_all_asked(policy: &Policy, tagged: usize, cases: &[Case]) {
    let calls = || cases.iter().flat_map(|case| &case.steps).map(|it| &it.call);
    for user in &policy.users {
        let open = Asked::Session(Call::Open(user.name.clone().into_bytes()));
        assert!(calls().any(|call| *call == open), "{} unused", user.name);
    }
    for Label { tag, .. } in &policy.labels[..tagged] {
        let is_asked = calls().any(|call| call.tag() == Some(*tag));
        assert!(is_asked, "label {tag} unused");
    }
}

/// ID USER CALL = ANSWER, where more calls may stand before the last with "then" between them. The
/// user opens a session first. Calls before the last are done.
fn read_case(policy: &mut Policy, line: &'static str) -> Case {
    let (_, case) = first_word(line);
    let (name, case) = first_word(case);
    let (calls, answer) = question_and_answer(case);
    let call = Asked::Session(Call::Open(name.as_bytes().to_vec()));
    if calls == "open" {
        let (answer, session) = read_opened(policy, name, answer);
        let steps = vec![Step {
            call,
            answer,
            session,
        }];
        return Case { line, steps };
    }
    let mut steps = vec![Step {
        call,
        answer: Answer::Done(0),
        session: opened(policy, name),
    }];
    let calls: Vec<&str> = calls.split(" then ").collect();
    for (at, call) in calls.iter().enumerate() {
        let answer = if at + 1 < calls.len() { "done" } else { answer };
        let before = steps[at].session;
        steps.push(read_step(policy, call, answer, before));
    }
    Case { line, steps }
}

/// The answer of an opening: a refusal, or the label and the row label as LABEL row LABEL.
fn read_opened(policy: &Policy, name: &str, answer: &str) -> (Answer, [u8; SESSION]) {
    if let Some(refusal) = read_refusal(answer) {
        return (refusal, UNOPENED);
    }
    let (label, row) = answer.split_once(" row ").expect("LABEL row LABEL");
    let labels = [label, row].map(|text| read_label(policy, text));
    (Answer::Done(0), session(user_place(policy, name), labels))
}

/// The session of a user at the default labels.
pub fn opened(policy: &Policy, name: &str) -> [u8; SESSION] {
    let place = user_place(policy, name);
    let user = &policy.users[place];
    let label = Label {
        tag: 0,
        level: user.levels.default,
        compartments: user.compartments.default,
        groups: user.groups.default,
    };
    let row = Label {
        tag: 0,
        level: user.levels.row,
        compartments: user.compartments.row,
        groups: user.groups.row,
    };
    session(place, [label, row])
}

fn user_place(policy: &Policy, name: &str) -> usize {
    let place = policy.users.iter().position(|user| user.name == name);
    place.unwrap_or_else(|| panic!("no user {name}"))
}

fn session(user: usize, [label, row]: [Label; 2]) -> [u8; SESSION] {
    let mut bytes = [0; SESSION];
    bytes[..2].fill(user as u8);
    bytes[8..56].copy_from_slice(&label.to_bytes());
    bytes[56..].copy_from_slice(&row.to_bytes());
    bytes
}

/// A call on a session: "label TEXT" and "row TEXT" change it, "read ROW", "write ROW" and "update ROW"
/// don't. A text that is done has the label of its capitals.
fn read_step(policy: &mut Policy, call: &str, answer: &str, before: [u8; SESSION]) -> Step {
    let (word, text) = call.split_once(' ').expect("a call and its text");
    let bytes = || text.as_bytes().to_vec();
    let (call, changed) = match word {
        "label" => (Asked::Session(Call::SetLabel(bytes())), Some(8)),
        "row" => (Asked::Session(Call::SetRowLabel(bytes())), Some(56)),
        "read" => (Asked::Session(Call::MayRead(tag_of(policy, text))), None),
        "write" => (Asked::Session(Call::MayWrite(tag_of(policy, text))), None),
        "update" => (Asked::Update(tag_of(policy, text)), None),
        _ => panic!("no call {word}"),
    };
    let given = match word {
        "read" | "write" => read_verdict(answer),
        _ if answer == "done" => Some(Answer::Done(0)),
        _ => read_refusal(answer),
    };
    let answer = given.unwrap_or_else(|| panic!("{answer} answers no {word}"));
    let mut session = before;
    if let (Some(at), Answer::Done(_)) = (changed, answer) {
        let label = read_label(policy, &text.to_uppercase()).to_bytes();
        session[at..at + 48].copy_from_slice(&label);
    }
    Step {
        call,
        answer,
        session,
    }
}

/// The tag of a row, which is given as #TAG or by its label. The label then gets a tag.
fn tag_of(policy: &mut Policy, row: &str) -> u32 {
    if let Some(tag) = row.strip_prefix('#') {
        return tag.parse().expect("a tag");
    }
    let tag = ROW_TAGS + policy.labels.len() as u32;
    let label = read_label(policy, row);
    policy.labels.push(Label { tag, ..label });
    tag
}
