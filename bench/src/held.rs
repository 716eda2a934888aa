//! Calls that are told beside another call on the same image, each after the one that it is held beside.

use crate::asked::Asked;

/// A call, and the one that it is held beside.
pub type Held = (&'static str, Option<&'static str>);

pub struct Line {
    pub name: String,
    pub asked: Asked,
    pub beside: Option<String>,
}

/// The calls on an image, which may have + and a session behind it.
pub fn lines(calls: &[Held], on: &str) -> Vec<Line> {
    let named = |call: &str| format!("{call}@{on}");
    let lines = calls.iter().map(|(call, beside)| Line {
        name: named(call),
        asked: Asked::named(&named(call)).expect("its name is known"),
        beside: beside.map(named),
    });
    lines.collect()
}
