//! Label text, read name by name, 32 bytes of it at once.

use super::label::Label;
use super::look_up::LookUp;
use super::names::{capitals, name_in, Front, Words};
use super::policy::{Class, Policy};
use brawnesk_tests::model::Refusal;

const LONGEST: usize = 4_096;

/// The label that a text names.
pub fn read(policy: &Policy, text: &[u8]) -> Result<Label, Refusal> {
    if text.len() > LONGEST {
        return Err(Refusal::Text);
    }
    let mut reading = Reading {
        policy,
        text,
        at: 0,
        refused: None,
    };
    let label = reading.label().ok_or(Refusal::Text)?;
    reading.refused.map_or(Ok(label), Err)
}

struct Reading<'a> {
    policy: &'a Policy<'a>,
    text: &'a [u8],
    at: usize,
    /// The leftmost name that is refused. The shape of the whole text comes before it.
    refused: Option<Refusal>,
}

impl Reading<'_> {
    /// LEVEL, LEVEL:list, LEVEL:list:list or LEVEL::list; nothing for any other shape.
    fn label(&mut self) -> Option<Label> {
        let name = self.name()?;
        let found = name.and_then(|name| LookUp::few(self.policy, Class::Level).place_of(&name));
        if found.is_none() {
            self.refused = Some(Refusal::NameUnknown(0));
        }
        let mut label = Label {
            level: found.unwrap_or(0) as u8,
            compartments: 0,
            groups: 0,
        };
        if self.is_done() {
            return Some(label);
        }
        self.passes(b':').then_some(())?;
        if !self.is_at(b':') {
            label.compartments = self.list(Class::Compartment)?;
            if self.is_done() {
                return Some(label);
            }
        }
        self.passes(b':').then_some(())?;
        label.groups = self.list(Class::Group)?;
        self.is_done().then_some(label)
    }

    /// The places that a list names.
    fn list(&mut self, class: Class) -> Option<u64> {
        let look_up = LookUp::new(self.policy, class, self.text.len() - self.at);
        let mut set = 0;
        loop {
            let at = self.at;
            let name = self.name()?;
            if self.refused.is_none() {
                let place = name.and_then(|name| look_up.place_of(&name));
                let bit = place.map_or(0, |place| 1 << place);
                if bit == 0 {
                    self.refused = Some(Refusal::NameUnknown(at));
                } else if set & bit != 0 {
                    self.refused = Some(Refusal::NameRepeated(at));
                }
                set |= bit;
            }
            if !self.passes(b',') {
                return Some(set);
            }
        }
    }

    /// Goes behind the name that stands here and gives it in capitals; nothing inside where it has over 30 bytes, and
    /// nothing where there is none.
    #[inline(always)]
    fn name(&mut self) -> Option<Option<Words>> {
        let (capitals, length) = capitals(&self.front());
        self.at += length;
        if length > 30 {
            while self.passes_letter() {}
            return Some(None);
        }
        (length > 0).then(|| Some(name_in(&capitals, length)))
    }

    /// The next 32 bytes, with zeros after the text.
    #[inline(always)]
    fn front(&self) -> Front {
        let rest = &self.text[self.at..];
        if let Some(front) = rest.first_chunk() {
            return *front;
        }
        let mut front = [0; 32];
        front[..rest.len()].copy_from_slice(rest);
        front
    }

    fn is_done(&self) -> bool {
        self.at == self.text.len()
    }

    fn is_at(&self, byte: u8) -> bool {
        self.text.get(self.at) == Some(&byte)
    }

    fn passes(&mut self, byte: u8) -> bool {
        let is_at = self.is_at(byte);
        self.at += usize::from(is_at);
        is_at
    }

    fn passes_letter(&mut self) -> bool {
        let byte = self.text.get(self.at);
        let is_letter = byte.is_some_and(|byte| byte.is_ascii_alphanumeric() || *byte == b'_');
        self.at += usize::from(is_letter);
        is_letter
    }
}
