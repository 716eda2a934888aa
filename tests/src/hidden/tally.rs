//! What was seen of two runs, to know that they go everywhere.

use super::program::HostCall;
use super::run::Run;
use super::scene::Scene;
use super::sequence::Step;
use crate::compare::CallTally;
use crate::ffi::{Answer, SESSION};
use crate::row_calls::{first_difference, RowCall};
use crate::spelling::has_small;
use crate::walk::{label_at, LABEL_AT};

/// For each call the answers that it can give on an image that is accepted.
const OUTCOMES: [(&str, &[&str]); 6] = [
    ("open", &["done", "4"]),
    (
        "set_label",
        &["done", "19", "5", "6", "7", "8", "9", "10", "11"],
    ),
    (
        "set_row_label",
        &["done", "19", "5", "6", "7", "8", "9", "10"],
    ),
    ("read", &["rows", "no rows", "19", "12", "13"]),
    ("read_mapped", &["rows", "no rows", "19", "12", "20", "13"]),
    ("update", &["done", "19", "12", "16", "14", "15"]),
];

#[derive(Debug, Default)]
pub struct HiddenTally {
    answers: CallTally,
    /// The same of label changes by texts with small letters.
    small: CallTally,
    /// Rows that were read at the maximum read label, plainly and by a map.
    at_maximum: [usize; 2],
    /// Reads that gave some rows, but not all that are readable at the maximum.
    partly: [usize; 2],
    /// Refused maps in which the bit of a hidden row is set.
    too_much: usize,
    /// Updates of one row that stands at different places in the two tables.
    apart: usize,
    /// Row calls that were done on a session that was given, and on the one returned last.
    sessions: [usize; 2],
    /// Pairs of tables with hidden rows in both, in different numbers.
    pairs: usize,
}

impl HiddenTally {
    pub fn add(&mut self, scene: &Scene, steps: &[Step], runs: &[Run; 2]) {
        let [one, two] = scene.hidden();
        self.pairs += usize::from(one > 0 && two > 0 && one != two);
        for (place, step) in steps.iter().enumerate() {
            let answer = runs[0].outcomes[place].answer;
            self.add_answer(step, answer);
            let HostCall::Rows(call) = &step.call else {
                continue;
            };
            match answer {
                Answer::Done(value) => {
                    self.sessions[usize::from(step.given.is_none())] += 1;
                    self.add_rows(scene, runs, place, call, value);
                }
                Answer::Refused { number: 20, .. } => {
                    let shows = shows_hidden(scene, call, &runs[0].tables[place]);
                    self.too_much += usize::from(shows);
                }
                Answer::Refused { .. } => {}
            }
        }
    }

    /// A row call that was done with that value.
    fn add_rows(
        &mut self,
        scene: &Scene,
        runs: &[Run; 2],
        place: usize,
        call: &RowCall,
        value: u64,
    ) {
        if !call.hands_out() {
            let [one, two] = [0, 1].map(|which| updated(scene, runs, which, place));
            self.apart += usize::from(one != two);
            return;
        }
        let way = usize::from(matches!(call, RowCall::ReadMapped { .. }));
        if is_at_maximum(scene, &runs[0].sessions[place]) {
            self.at_maximum[way] += value as usize;
            return;
        }
        let all = scene.list(&runs[0].tables[place]).len() as u64;
        self.partly[way] += usize::from(value > 0 && value < all);
    }

    fn add_answer(&mut self, step: &Step, answer: Answer) {
        match &step.call {
            HostCall::Session(call) => {
                self.answers.add(call.name(), false, answer);
                if call.text().is_some_and(has_small) {
                    self.small.add(call.name(), false, answer);
                }
            }
            HostCall::Rows(call) => self.answers.count(call.name(), call.outcome(answer)),
        }
    }

    /// Asks that each call gave each of its answers at least so often, and label changes half as often to texts with
    /// small letters; that what else is counted came twenty times as often; and that so many pairs of tables had
    /// different numbers of hidden rows.
    pub fn assert_varied(&self, least: usize, pairs: usize) {
        for (call, outcomes) in OUTCOMES {
            self.answers.assert_least(call, outcomes, least);
        }
        for (call, outcomes) in &OUTCOMES[1..3] {
            self.small.assert_least(call, outcomes, least / 2);
        }
        let others = [self.apart, self.too_much];
        for times in [self.at_maximum, self.partly, self.sessions, others].concat() {
            assert!(times >= 20 * least, "{self:?}");
        }
        assert!(self.pairs >= pairs, "{} pairs", self.pairs);
    }
}

/// Whether a lent map that is as long as the right one has the bit of a hidden row of the table.
fn shows_hidden(scene: &Scene, call: &RowCall, table: &[u8]) -> bool {
    let RowCall::ReadMapped { map, .. } = call else {
        return false;
    };
    let mut rows = table.chunks(scene.width);
    map.len() == scene.policy.labels.len().div_ceil(8)
        && rows.any(|row| scene.is_hidden(row) && scene.bit_of(row, map) == Some(true))
}

fn is_at_maximum(scene: &Scene, session: &[u8; SESSION]) -> bool {
    let user = &scene.policy.users[scene.user];
    let label = label_at(session, LABEL_AT);
    label.level == user.levels.maximum
        && label.compartments == user.compartments.read
        && label.groups == user.groups.read
}

/// The place of the row that a call updated in one of the tables, if a byte changed.
fn updated(scene: &Scene, runs: &[Run; 2], which: usize, place: usize) -> usize {
    let before = match place {
        0 => &scene.tables[which],
        _ => &runs[which].tables[place - 1],
    };
    first_difference(before, &runs[which].tables[place]) / scene.width
}
