//! Images of either edition with a row of tags, 10, 20 and so on, of which a user reads two thirds.

use super::images::image;
use brawnesk::{Image, Session};

/// What an image is made of: its edition, the privileges of its one user, and how many labels it has.
#[derive(Clone, Copy, Debug)]
pub struct Thirds {
    pub edition: u8,
    pub privileges: u8,
    pub labels: u16,
}

/// Each of these privileges in each edition with several numbers of labels: on either side of a whole byte of
/// a map and of a whole block, and the most that there may be.
pub fn cases(privileges: &[u8]) -> Vec<Thirds> {
    let counts = [
        (1, &[0, 1, 7, 8, 9, 16, 21, 22, 168, 169, 1_679, 1_680][..]),
        (2, &[0, 1, 7, 8, 9, 10, 11, 16, 101, 800]),
    ];
    let mut cases = Vec::new();
    for (edition, counts) in counts {
        cases.extend(counts.iter().flat_map(|&labels| {
            let case = move |&privileges| Thirds {
                edition,
                privileges,
                labels,
            };
            privileges.iter().map(case)
        }));
    }
    cases
}

/// The tag of the label at that place.
pub fn tag(place: u16) -> u32 {
    10 * (u32::from(place) + 1)
}

pub fn user(image: Image) -> Session {
    image.open("USER").expect("the image has USER")
}

impl Thirds {
    /// Every third label has the one compartment, the first too. USER does not have it.
    pub fn image(self) -> Box<[u8]> {
        let (label_size, labels_in, user_size, users_in) = match self.edition {
            2 => (48, 10, 200, 2),
            _ => (24, 21, 128, 3),
        };
        let label = |place: u16| {
            let mut record = vec![0; label_size];
            record[..4].copy_from_slice(&tag(place).to_le_bytes());
            record[8] = u8::from(place.is_multiple_of(3));
            record
        };
        let mut user = vec![0; user_size];
        user[..5].copy_from_slice(b"\x04USER");
        user[31] = self.privileges;
        let labels = self.labels.to_le_bytes();
        image(
            &[&[self.edition, 1, 1, 0, 1, 0], &labels[..]].concat(),
            [
                (67, 12, vec![self.component(1), self.component(2)]),
                (76, labels_in, (0..self.labels).map(label).collect()),
                (85, users_in, vec![user]),
            ],
        )
    }

    /// The level, or the compartment.
    fn component(self, class: u8) -> Vec<u8> {
        let mut record = vec![0; 40];
        (record[0], record[1], record[2], record[34]) = (class, 1, b'A', 255);
        record[35] = if self.edition == 2 { 255 } else { 0 };
        record
    }

    /// With READ or FULL.
    pub fn reads_all(self) -> bool {
        self.privileges & 3 != 0
    }

    /// The user's map, bit by bit.
    pub fn map(self) -> Vec<u8> {
        let mut map = vec![0; usize::from(self.labels).div_ceil(8)];
        let is_read = |place: &u16| self.reads_all() || !place.is_multiple_of(3);
        for place in (0..self.labels).filter(is_read) {
            map[usize::from(place) / 8] |= 1 << (place % 8);
        }
        map
    }

    /// Rows of 5 bytes: one for each tag, and before each, and after the last, one whose tag no label carries;
    /// the first row's tag is 0.
    pub fn table(self) -> Vec<u8> {
        let tags = (0..tag(self.labels)).step_by(5);
        let row = |tag: u32| [&tag.to_le_bytes()[..], b"-"].concat();
        tags.flat_map(row).collect()
    }

    /// How many of these rows the user may read: READ and FULL see unknown tags under edition 1 alone.
    pub fn readable(self) -> usize {
        match (self.reads_all(), self.edition) {
            (false, _) => usize::from(self.labels - self.labels.div_ceil(3)),
            (_, 1) => self.table().len() / 5,
            _ => usize::from(self.labels),
        }
    }
}
