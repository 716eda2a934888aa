//! The calls that are measured on the largest images of edition 2, and the move up to it.

use crate::asked::Asked;

/// The check is the first, since the others are told in percent over it.
const CALLS: [&str; 9] = [
    "check",
    "parse-longest",
    "print-longest",
    "open",
    "set-label-longest",
    "may-read-last",
    "dominates",
    "read-10",
    "update-10",
];

const TREES: [&str; 3] = ["parent-higher", "parent-lower", "wide"];

/// The names of the calls, image by image. The move up is asked on an image of edition 1, and left out
/// where the library has none.
pub fn names() -> Vec<String> {
    let on = |image: &'static str| CALLS.map(|call| format!("{call}@{image}"));
    let moving = ["check@movable", "move-up@movable"].map(String::from);
    let names = TREES.into_iter().flat_map(on).chain(moving);
    names.filter(|name| can_be_asked(name)).collect()
}

fn can_be_asked(name: &str) -> bool {
    Asked::named(name).is_some_and(|asked| asked.version("ours").is_some())
}

#[cfg(test)]
mod tests {
    use super::*;
    use brawnesk_tests::ffi::{self, Answer};

    /// The library agrees with the model, and the scene tells of the rows that a read gives.
    #[test]
    fn versions_agree() {
        for name in names() {
            let asked = Asked::named(&name).expect("its name is known");
            let scene = asked.scene();
            let answer = asked.agreed(&scene);
            if asked.call.function == "read" {
                assert_eq!(answer, Answer::Done(scene.rows.readable as u64), "{name}");
            }
        }
    }

    #[test]
    fn all_calls_are_known() {
        let known = names().len();
        assert!(
            known >= CALLS.len() * TREES.len() || !ffi::LINKED,
            "{known}"
        );
    }
}
