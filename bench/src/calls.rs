//! The measured calls, each by the library, by the plain version and by the model.

use crate::by_model;
use crate::move_up::MOVE_UP;
use crate::plain::calls as plain;
use crate::row_calls::{GROWING_READS, MAPPED_READS, ROW_CALLS};
use crate::rows::Shape;
use crate::scene::{Out, Scene};
use crate::writing::WRITING;
use brawnesk_tests::ffi::{self, Answer};

pub type Version = fn(&Scene, &mut Out) -> Answer;

pub struct Call {
    pub name: &'static str,
    /// The function's name in `ffi` and in `plain`. The C function has `brawnesk_` before it.
    pub function: &'static str,
    /// By how many percent of the check it may exceed the check. Of a row call: how many percent of
    /// the plain version it may take. Of a call on maps: how many instructions a label it may take beside a
    /// may_read, or how many percent of the call that it is held beside; of writing too.
    pub limit: Option<u32>,
    /// What a row call is lent.
    pub shape: Option<Shape>,
    pub ours: Version,
    pub plain: Option<Version>,
    pub model: Version,
}

/// Of each call its name, its limit, and its function with arguments that are the same for all
/// versions.
macro_rules! calls {
    ($calls:ident: |$scene:ident, $out:ident|
        $($name:literal, $limit:expr => $function:ident($($argument:expr),*);)*) => {
        #[allow(unused_variables)]
        pub const $calls: &[Call] = &[$(
            Call {
                name: $name,
                function: stringify!($function),
                limit: $limit,
                shape: None,
                ours: |$scene, $out| ffi::$function($($argument),*),
                plain: Some(|$scene, $out| plain::$function($($argument),*)),
                model: |$scene, $out| by_model::$function($($argument),*),
            },
        )*];
    };
}

const VERDICT: Option<u32> = Some(5);
const OPENING: Option<u32> = Some(5);
const CHANGE: Option<u32> = Some(30);
const GROUP: u8 = 3;

/// How many instructions a label.
const MAP: Option<u32> = Some(40);

calls! {
    CALLS: |scene, out|
    "check", None => check(&scene.image);
    "name", None => name(&scene.image, GROUP, scene.last_group);
    "parse", None => parse(&scene.image, &scene.text, &mut out.label);
    "parse-level", None => parse(&scene.image, &scene.level_text, &mut out.label);
    "parse-longest", None => parse(&scene.image, &scene.whole_text, &mut out.label);
    "print-longest", None => print(&scene.image, &scene.whole, &mut out.text);
    "open", OPENING => open(&scene.image, &scene.last_user, &mut out.session);
    "set-label", CHANGE => set_label(&scene.image, out.lend(&scene.with_row), &scene.text);
    "set-label-longest", CHANGE =>
        set_label(&scene.image, out.lend(&scene.widest), &scene.widest_text);
    "set-row-label", CHANGE =>
        set_row_label(&scene.image, out.lend(&scene.session), &scene.text);
    "may-read-last", VERDICT => may_read(&scene.image, &scene.session, scene.last_tag);
    "may-read-unknown", VERDICT => may_read(&scene.image, &scene.session, scene.unknown_tag);
    "may-write-last", VERDICT => may_write(&scene.image, &scene.session, scene.last_tag);
    "dominates", None => dominates(&scene.image, &scene.whole, &scene.last_label);
    "merge", None => merge(&scene.last_label, &scene.text_label, b"LMU", &mut out.label);
}

// By the session of the rows.
calls! {
    MAP_CALLS: |scene, out|
    "may-read", None => may_read(&scene.rows.image, &scene.rows.session, scene.unknown_tag);
    "map", MAP => map(&scene.rows.image, &scene.rows.session, &mut out.map);
    "judge-map", MAP => judge_map(&scene.rows.image, &scene.rows.session, &scene.rows.map);
}

impl Call {
    pub fn named(name: &str) -> Option<&'static Call> {
        let calls = CALLS.iter().chain(ROW_CALLS).chain([&MOVE_UP]);
        let calls = calls.chain(MAP_CALLS).chain(MAPPED_READS).chain(WRITING);
        let calls = calls.chain(GROWING_READS);
        calls.into_iter().find(|call| call.name == name)
    }

    /// Merging is lent no image.
    pub fn is_lent_an_image(&self) -> bool {
        self.function != "merge"
    }
}

#[cfg(test)]
mod tests {
    use super::*;
    use crate::asked::Asked;

    #[test]
    fn versions_agree() {
        for call in CALLS {
            let asked = Asked { call, on: None };
            asked.agreed(&asked.scene());
        }
    }
}
