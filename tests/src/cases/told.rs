//! The kinds of faults that a damaged image is told with. Below stands for the rules of a user's groups that come
//! last, also for those of the release profile.

use super::tally::{HELD, HELD_BEFORE, HIGH_GROUP, HIGH_RING, OF_RELEASE, PARENT, RING, RING_AT_0};
use crate::builder::layout::BLOCK;
use crate::builder::{Set, Variant, COMPACCESS};
use crate::model::{Fault, Kind};

/// The kinds of an image's faults, which are in order, and whether the first, which is told, is of them.
pub fn kinds(variant: Variant, image: &[u8], faults: &[Fault]) -> Vec<(&'static str, bool)> {
    let told = Told {
        variant,
        image,
        fault: faults[0],
    };
    let mut kinds = told.by_place();
    kinds.extend(told.by_compaccess(faults));
    kinds.push((PARENT, variant.is_release() && told.has_parent()));
    kinds.extend(told.by_release());
    kinds
}

/// The fault that is told of an image.
struct Told<'a> {
    variant: Variant,
    image: &'a [u8],
    fault: Fault,
}

impl Told<'_> {
    fn by_place(&self) -> Vec<(&'static str, bool)> {
        let (image, told) = (self.image, self.fault);
        let number = told.refusal().number();
        let is_below = matches!(told, Fault::Below { .. });
        let (is_belowr, is_last) = match told {
            Fault::Record { block, record, .. } | Fault::Below { block, record } => {
                let [before, bytes] = [block - 1, block].map(|it| &image[it * BLOCK..][..BLOCK]);
                (before[0] == bytes[0], record + 1 == usize::from(bytes[1]))
            }
            _ => (false, false),
        };
        vec![
            ("31 in block 0", told == Fault::Layout { block: 0 }),
            ("31", matches!(told, Fault::Layout { block: 1.. })),
            ("32", number == 32),
            ("32 in a later block", number == 32 && is_belowr),
            ("32 at the last record of a block", number == 32 && is_last),
            (HIGH_GROUP, self.is_high()),
            ("33", number == 33),
            ("33 in a later block", number == 33 && is_belowr),
            ("33 at the last record of a block", number == 33 && is_last),
            ("34", number == 34 && !is_below),
            ("34 in a later block", number == 34 && is_belowr),
            ("34 at the last record of a block", number == 34 && is_last),
            ("34 by below", is_below),
            ("34 by below in a later block", is_below && is_belowr),
            (RING_AT_0, told == Fault::Ring { group: 0 }),
            (RING, matches!(told, Fault::Ring { group: 1.. })),
            (HIGH_RING, matches!(told, Fault::Ring { group: 64.. })),
        ]
    }

    /// The component that is told, if it is one: its place among all, and its record.
    fn component(&self) -> Option<(usize, &[u8])> {
        let Fault::Record {
            kind: Kind::Component,
            block,
            record,
        } = self.fault
        else {
            return None;
        };
        let bytes = &self.image[block * BLOCK + 4 + record * 40..][..40];
        Some((12 * (block - 1) + record, bytes))
    }

    /// Of a group that edition 1 has no place for.
    fn is_high(&self) -> bool {
        let first_group = usize::from(self.image[5]) + usize::from(self.image[6]);
        self.component()
            .is_some_and(|(place, _)| place >= first_group + 64)
    }

    /// Of a group that names a group.
    fn has_parent(&self) -> bool {
        let edition = self.variant.edition;
        let number = |bytes: &[u8]| {
            bytes
                .iter()
                .rev()
                .fold(0, |it, &byte| 256 * it + usize::from(byte))
        };
        let groups = number(&self.image[edition.group_count()]);
        self.component()
            .is_some_and(|(_, record)| record[0] == 3 && number(&record[edition.parent()]) < groups)
    }

    /// The user's record, if the fault is a user's own or one by below.
    fn user(&self) -> Option<&[u8]> {
        let (block, record) = match self.fault {
            Fault::Record {
                kind: Kind::User,
                block,
                record,
            }
            | Fault::Below { block, record } => (block, record),
            _ => return None,
        };
        let size = self.variant.edition.users().size;
        Some(&self.image[block * BLOCK + 4 + record * size..][..size])
    }

    /// Of a user who holds COMPACCESS, alone or beside faults that come after all records.
    fn by_compaccess(&self, faults: &[Fault]) -> [(&'static str, bool); 2] {
        let is_own = matches!(self.fault, Fault::Record { .. });
        let is_held = self.user().is_some_and(|it| it[31] & COMPACCESS != 0);
        let is_told = is_own && is_held && !self.variant.has_compaccess();
        let is_below = |fault: &Fault| matches!(fault, Fault::Ring { .. } | Fault::Below { .. });
        let is_before = is_told && faults.iter().any(is_below);
        [(HELD, is_told), (HELD_BEFORE, is_before)]
    }

    /// Which rules of the release profile the user breaks.
    fn by_release(&self) -> [(&'static str, bool); 4] {
        let is_below = self.variant.is_release() && matches!(self.fault, Fault::Below { .. });
        let user = self.user().filter(|_| is_below);
        let size = self.variant.edition.group_set();
        let broken = user.map_or([false; 4], |user| {
            let [read, write, default, row] =
                [0, 1, 2, 3].map(|it| Set::from_bytes(&user[72 + it * size..][..size]));
            [
                !read.is_in(default),
                !default.is_in(row),
                !read.is_in(write),
                !write.is_in(read),
            ]
        });
        [0, 1, 2, 3].map(|it| (OF_RELEASE[it], broken[it]))
    }
}
