//! A call on an image: what it is lent, the versions that can be run, and the answer that they agree on.

use crate::calls::{Call, Version};
use crate::images::Of;
use crate::move_up;
use crate::rows::{Room, Shape, NO_ROWS};
use crate::scene::{Out, Scene};
use crate::who::On;
use brawnesk_tests::builder::Edition;
use brawnesk_tests::ffi::{self, Answer};

const VERSIONS: [&str; 2] = ["ours", "plain"];

pub struct Asked {
    pub call: &'static Call,
    /// Nothing for the image that the call is mostly asked on.
    pub on: Option<On>,
}

impl Asked {
    /// By the call's name, with @ and the image's name behind it for another image.
    pub fn named(name: &str) -> Option<Asked> {
        let Some((call, image)) = name.split_once('@') else {
            let call = Call::named(name)?;
            return Some(Asked { call, on: None });
        };
        Some(Asked {
            call: Call::named(call)?,
            on: Some(On::named(image)?),
        })
    }

    /// All but the rows is of the largest image where none is told.
    pub fn scene(&self) -> Scene {
        let shape = self.call.shape.unwrap_or(NO_ROWS);
        let on = self.on.unwrap_or(shape.on);
        let image = self.on.unwrap_or(On::reader(Of::Full));
        Scene::new(image, &Shape { on, ..shape })
    }

    /// The names of the versions that can be run, with a blank between them.
    pub fn versions(&self) -> String {
        let known = VERSIONS.into_iter();
        let known = known.filter(|version| self.version(version).is_some());
        known.collect::<Vec<_>>().join(" ")
    }

    /// Without the library ours can't be run. The plain version knows edition 1 only.
    pub fn version(&self, name: &str) -> Option<Version> {
        let has_plain = self.on.is_none_or(|on| on.of.edition() == Edition::One);
        match name {
            "ours" => self.is_linked().then_some(self.call.ours),
            "plain" => self.call.plain.filter(|_| has_plain),
            _ => None,
        }
    }

    fn is_linked(&self) -> bool {
        ffi::LINKED && (move_up::LINKED || self.call.function != "move_up")
    }

    /// A read to a buffer that is too short is refused; all other calls are done.
    fn is_refused(&self) -> bool {
        let room = self.call.shape.map(|shape| shape.room);
        matches!(room, Some(Room::Short))
    }

    /// The answer. Asks that it is one of the right kind, that all versions give it, and that they
    /// write the same. The model is one of them but for tables that a plain version reads, where it takes long.
    pub fn agreed(&self, scene: &Scene) -> Answer {
        let run = |version: Version| {
            let mut out = Out::new(scene);
            (version(scene, &mut out), out)
        };
        let plain = self.version("plain").filter(|_| self.call.shape.is_some());
        let right = run(plain.unwrap_or(self.call.model));
        let (name, is_done) = (self.call.name, matches!(right.0, Answer::Done(_)));
        assert_eq!(is_done, !self.is_refused(), "{name}");
        for version in VERSIONS {
            if let Some(other) = self.version(version) {
                assert!(run(other) == right, "{name}: {version}");
            }
        }
        right.0
    }
}
