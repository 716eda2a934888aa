//! The calls on maps, and what they are held beside: making and judging a may_read of an unknown tag by the
//! same session, a mapped read of a large table the plain read of it, and one of few rows the judging.

use crate::asked::Asked;
use crate::held::{lines, Held, Line};

/// On each, the reader's session, one with READ, and the one for which a map costs the most.
const IMAGES: [&str; 5] = ["full", "parent-higher", "parent-lower", "wide", "release"];
const SESSIONS: [&str; 3] = ["", "+READ", "+top"];

const MADE_AND_JUDGED: [Held; 4] = [
    ("check", None),
    ("may-read", None),
    ("map", Some("may-read")),
    ("judge-map", Some("may-read")),
];

const READS: [Held; 7] = [
    ("judge-map", None),
    ("rows-20", None),
    ("mapped-20", Some("judge-map")),
    ("read-10", None),
    ("mapped-10", Some("read-10")),
    ("read-64", None),
    ("mapped-64", Some("read-64")),
];

/// For other sessions and images a table of one width is enough.
const FEWER_READS: usize = 5;
const READ_ON: [&str; 6] = [
    "full+READ",
    "full+top",
    "parent-higher",
    "parent-lower",
    "wide",
    "release",
];

pub fn made_and_judged() -> Vec<Line> {
    let sessions = |image| SESSIONS.map(|session| format!("{image}{session}"));
    let on = IMAGES.into_iter().flat_map(sessions);
    on.flat_map(|on| lines(&MADE_AND_JUDGED, &on)).collect()
}

pub fn reads() -> Vec<Line> {
    let others = READ_ON.into_iter();
    let others = others.flat_map(|on| lines(&READS[..FEWER_READS], on));
    lines(&READS, "full").into_iter().chain(others).collect()
}

pub fn all() -> impl Iterator<Item = Line> {
    made_and_judged().into_iter().chain(reads())
}

/// How many labels the call's image has.
pub fn labels(asked: &Asked) -> usize {
    asked.on.map_or(0, |on| on.policy().labels.len())
}

pub fn rows(asked: &Asked) -> usize {
    asked.call.shape.map_or(0, |shape| shape.rows)
}

#[cfg(test)]
mod tests {
    use super::*;
    use crate::scene::{Out, Scene};
    use brawnesk_tests::ffi::Answer;

    fn answers_as_told(line: &Line, scene: &Scene) {
        let wanted = match line.asked.call.function {
            "read" | "read_mapped" => scene.rows.readable,
            "map" => scene.rows.map.len(),
            "judge_map" | "check" => 0,
            _ => return,
        };
        let answer = line.asked.agreed(scene);
        assert_eq!(answer, Answer::Done(wanted as u64), "{}", line.name);
    }

    /// All versions agree; a read gives the rows that the scene tells of, and the map is the scene's.
    #[test]
    fn versions_agree() {
        for line in all() {
            let scene = line.asked.scene();
            answers_as_told(&line, &scene);
            if line.asked.call.function == "map" {
                let mut out = Out::new(&scene);
                (line.asked.call.model)(&scene, &mut out);
                let length = scene.rows.map.len();
                assert!(out.map[..length] == scene.rows.map, "{}", line.name);
            }
        }
    }

    /// The dearest session reads every label, as one with READ does.
    #[test]
    fn sessions_are_as_told() {
        for line in made_and_judged() {
            let (known, tags) = line.asked.scene().rows.tags;
            let is_reader = !line.name.contains('+');
            assert_eq!(known == tags, !is_reader, "{}: {known}", line.name);
        }
    }
}
