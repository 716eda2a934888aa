//! The calls of request R-1: an image is written from its own records, and taken apart into them.

use crate::asked::Asked;
use crate::by_model;
use crate::calls::Call;
use crate::held::{lines, Held, Line};
use crate::plain::calls as plain;
use brawnesk_tests::ffi;
use brawnesk_tests::model::Kind;

const IMAGES: [&str; 5] = ["full", "parent-higher", "parent-lower", "wide", "release"];

/// The check is the first, since the others are told in percent of it.
const HELD: [Held; 5] = [
    ("check", None),
    ("write", Some("check")),
    ("component-records", Some("check")),
    ("label-records", Some("check")),
    ("user-records", Some("check")),
];

/// Writing an image takes at most so many percent of its check.
const OF_CHECK: Option<u32> = Some(200);

macro_rules! records {
    ($name:literal, $function:ident, $kind:expr) => {
        Call {
            name: $name,
            function: stringify!($function),
            limit: None,
            shape: None,
            ours: |scene, out| ffi::records($kind, &scene.image, &mut out.image),
            plain: Some(|scene, out| plain::$function(&scene.image, &mut out.image)),
            model: |scene, out| by_model::records($kind, &scene.image, &mut out.image),
        }
    };
}

/// To a buffer that holds any image.
pub const WRITING: &[Call] = &[
    Call {
        name: "write",
        function: "write",
        limit: OF_CHECK,
        shape: None,
        ours: |scene, out| ffi::write(&scene.records.lent(), &mut out.image),
        plain: Some(|scene, out| plain::write(&scene.records.lent(), &mut out.image)),
        model: |scene, out| by_model::write(&scene.records.lent(), &mut out.image),
    },
    records!("component-records", component_records, Kind::Component),
    records!("label-records", label_records, Kind::Label),
    records!("user-records", user_records, Kind::User),
];

pub fn all() -> Vec<Line> {
    IMAGES.into_iter().flat_map(|on| lines(&HELD, on)).collect()
}

/// How many blocks the call's image has.
pub fn blocks(asked: &Asked) -> usize {
    asked.scene().image.len() / 512
}

#[cfg(test)]
mod tests {
    use super::*;
    use crate::scene::Out;
    use brawnesk_tests::ffi::Answer;

    /// All versions agree, and what is written is the image.
    #[test]
    fn versions_agree() {
        for line in all() {
            let scene = line.asked.scene();
            let answer = line.asked.agreed(&scene);
            if line.asked.call.function == "write" {
                let mut out = Out::new(&scene);
                (line.asked.call.model)(&scene, &mut out);
                let length = scene.image.len();
                assert_eq!(answer, Answer::Done(length as u64), "{}", line.name);
                assert!(out.image[..length] == scene.image, "{}", line.name);
            }
        }
    }
}
