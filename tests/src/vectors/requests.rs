//! The rows of the worked examples that wait for a request, in `vectors/requests.txt`.

use super::parts::lines_that_say;
use super::{first_word, question_and_answer};

/// A row's number, and the number of the request that is to answer it.
#[derive(Clone, Copy, Debug, PartialEq, Eq, PartialOrd, Ord)]
pub struct Waiting {
    pub row: u32,
    pub request: u32,
}

/// Each line is Gn R-m QUESTION = ANSWER.
pub fn requests() -> Vec<Waiting> {
    let file = include_str!("../../vectors/requests.txt");
    lines_that_say(file).map(read_waiting).collect()
}

fn read_waiting(line: &'static str) -> Waiting {
    let (row, rest) = first_word(line);
    let (request, case) = first_word(rest);
    let (question, answer) = question_and_answer(case);
    assert!(!question.is_empty() && !answer.is_empty(), "{line}");
    let number = |word: &str, before: &str| word.strip_prefix(before)?.parse().ok();
    Waiting {
        row: number(row, "G").expect(line),
        request: number(request, "R-").expect(line),
    }
}
