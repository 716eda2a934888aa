//! The components of a class by their names. For long lists a table is filled first that tells where each name stands.

use super::names::{key, name_of, Words};
use super::policy::{Class, Policy};
use super::records::set_at;
use super::slices;

const SLOTS: usize = 1_024;

/// A list of fewer bytes is read without a table.
const MANY: usize = 200;

pub struct LookUp<'a> {
    policy: &'a Policy<'a>,
    /// The place of its first component among all components, and its count.
    class: (usize, usize),
    is_filled: bool,
    /// By a name's key: one more than the place of the last component whose name has it, or 0.
    slots: [u8; SLOTS],
}

impl<'a> LookUp<'a> {
    pub fn few(policy: &'a Policy<'a>, class: Class) -> LookUp<'a> {
        LookUp::new(policy, class, 0)
    }

    /// For a text of so many bytes.
    pub fn new(policy: &'a Policy<'a>, class: Class, length: usize) -> LookUp<'a> {
        let mut look_up = LookUp {
            policy,
            class: policy.class(class),
            is_filled: length >= MANY,
            slots: [0; SLOTS],
        };
        if look_up.is_filled {
            for (record, next) in look_up.records().flatten().zip(1..) {
                look_up.slots[slot(&name_of(record))] = next;
            }
        }
        look_up
    }

    fn records(&self) -> impl Iterator<Item = &'a [[u8; 40]]> + use<'a> {
        slices::<40, 12>(&self.policy.blocks[1..], self.class.0, self.class.1)
    }

    /// The place of a name in its class.
    #[inline(always)]
    pub fn place_of(&self, name: &Words) -> Option<usize> {
        if self.is_filled {
            let place = usize::from(self.slots[slot(name)]).checked_sub(1)?;
            if name_of(self.policy.component(self.class.0 + place)) == *name {
                return Some(place);
            }
        }
        self.sought(name)
    }

    /// The first eight bytes tell most names apart.
    #[inline(never)]
    fn sought(&self, name: &Words) -> Option<usize> {
        let mut before = 0;
        for records in self.records() {
            let is_named =
                |record: &[u8; 40]| set_at(record, 2) == name[0] && name_of(record) == *name;
            if let Some(place) = records.iter().position(is_named) {
                return Some(before + place);
            }
            before += records.len();
        }
        None
    }
}

fn slot(name: &Words) -> usize {
    key(name) % SLOTS
}
