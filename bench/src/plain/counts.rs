//! How many records of each kind an image has, and where they stand.

use super::{all_zero, Block};

pub struct Counts {
    pub levels: usize,
    pub compartments: usize,
    pub groups: usize,
    pub users: usize,
    pub labels: usize,
}

impl Counts {
    /// The counts, if the header keeps its rules and the length fits them.
    pub fn read(blocks: &[Block]) -> Option<Counts> {
        let header = &blocks[0];
        let counts = Counts {
            levels: usize::from(header[5]),
            compartments: usize::from(header[6]),
            groups: usize::from(header[7]),
            users: usize::from(u16::from_le_bytes([header[8], header[9]])),
            labels: usize::from(u16::from_le_bytes([header[10], header[11]])),
        };
        let holds = header[0] == 80
            && header[1] == 0
            && header[4] == 1
            && counts.in_limits()
            && all_zero(&header[12..510])
            && blocks.len() == counts.blocks();
        holds.then_some(counts)
    }

    pub fn in_limits(&self) -> bool {
        (1..=32).contains(&self.levels)
            && self.compartments <= 64
            && self.groups <= 64
            && self.users <= 96
            && self.labels <= 1_680
    }

    pub fn components(&self) -> usize {
        self.levels + self.compartments + self.groups
    }

    /// The place of the first group among all components.
    pub fn first_group(&self) -> usize {
        self.levels + self.compartments
    }

    pub fn first_label(&self) -> usize {
        1 + self.components().div_ceil(12)
    }

    pub fn first_user(&self) -> usize {
        self.first_label() + self.labels.div_ceil(21)
    }

    /// How many blocks an image of so many records has.
    pub fn blocks(&self) -> usize {
        self.first_user() + self.users.div_ceil(3)
    }

    /// Block 0 without its place and its check.
    pub fn write(&self, header: &mut Block) {
        header.fill(0);
        header[0] = 80;
        header[4] = 1;
        header[5] = self.levels as u8;
        header[6] = self.compartments as u8;
        header[7] = self.groups as u8;
        header[8..10].copy_from_slice(&(self.users as u16).to_le_bytes());
        header[10..12].copy_from_slice(&(self.labels as u16).to_le_bytes());
    }
}
