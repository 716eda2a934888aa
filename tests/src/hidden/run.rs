//! Two runs of one sequence, and what demand 3 says of them.

use super::program::{HostCall, Program};
use super::scene::Scene;
use super::sequence::Step;
use crate::ffi::{Answer, SESSION};
use crate::row_calls::Lent;
use std::mem;

/// What has to be equal after a call: its answer; an opening's or label change's session; and of a
/// read, plain or mapped, the first count times width bytes of the buffer.
#[derive(Debug, PartialEq, Eq)]
pub struct Outcome {
    pub answer: Answer,
    session: Option<[u8; SESSION]>,
    rows: Vec<u8>,
}

/// What demand 3 rules out.
#[derive(Debug, PartialEq, Eq)]
pub enum Difference {
    /// A call gave different things in the two runs; these in words.
    Outcomes(String),
    /// At the end the lists of rows that are readable at the maximum differ.
    Lists,
    /// At the end a hidden row hasn't its old bytes at its old place.
    HiddenRow { table: usize, place: usize },
    /// At the end a table has another length.
    Length { table: usize },
}

/// One run: what each call gave, and the table after each call.
pub struct Run {
    pub outcomes: Vec<Outcome>,
    pub tables: Vec<Vec<u8>>,
    /// The session that each call worked on.
    pub sessions: Vec<[u8; SESSION]>,
}

/// Makes the calls on one of the scene's tables.
fn run(scene: &Scene, steps: &[Step], which: usize, program: &dyn Program) -> Run {
    let mut run = Run {
        outcomes: Vec::new(),
        tables: Vec::new(),
        sessions: Vec::new(),
    };
    program.start();
    let mut table = scene.tables[which].clone();
    let mut last = [0; SESSION];
    for step in steps {
        let mut lent = Lent {
            session: step.given.unwrap_or(last),
            table: mem::take(&mut table),
            buffer: step.buffers[which].clone(),
        };
        run.sessions.push(lent.session);
        let answer = program.ask(&step.call, &mut lent);
        if step.call.returns_session(answer) {
            last = lent.session;
        }
        run.outcomes.push(outcome(&step.call, answer, &lent));
        table = lent.table;
        run.tables.push(table.clone());
    }
    run
}

fn outcome(call: &HostCall, answer: Answer, lent: &Lent) -> Outcome {
    let rows = match (call, answer) {
        (HostCall::Rows(call), Answer::Done(count)) if call.hands_out() => {
            let length = (count as usize).saturating_mul(call.width());
            lent.buffer[..length.min(lent.buffer.len())].to_vec()
        }
        _ => Vec::new(),
    };
    Outcome {
        answer,
        session: matches!(call, HostCall::Session(_)).then_some(lent.session),
        rows,
    }
}

/// Both runs, one after the other, if demand 3 holds of them; else the first thing that it rules out.
pub fn both(scene: &Scene, steps: &[Step], program: &dyn Program) -> Result<[Run; 2], Difference> {
    let runs = [0, 1].map(|which| run(scene, steps, which, program));
    for (place, step) in steps.iter().enumerate() {
        let [one, two] = runs.each_ref().map(|run| &run.outcomes[place]);
        if one != two {
            let words = format!("call {place}, {:?}: {one:?} and {two:?}", step.call);
            return Err(Difference::Outcomes(words));
        }
    }
    let ends = [0, 1].map(|which| runs[which].tables.last().unwrap_or(&scene.tables[which]));
    if scene.list(ends[0]) != scene.list(ends[1]) {
        return Err(Difference::Lists);
    }
    for (table, end) in ends.into_iter().enumerate() {
        hidden_rows_stay(scene, table, end)?;
    }
    Ok(runs)
}

/// Each row that wasn't readable at the maximum has its old bytes at its old place.
fn hidden_rows_stay(scene: &Scene, table: usize, end: &[u8]) -> Result<(), Difference> {
    let start = &scene.tables[table];
    if start.len() != end.len() {
        return Err(Difference::Length { table });
    }
    let rows = start.chunks(scene.width).zip(end.chunks(scene.width));
    for (place, (old, new)) in rows.enumerate() {
        if scene.is_hidden(old) && old != new {
            return Err(Difference::HiddenRow { table, place });
        }
    }
    Ok(())
}
