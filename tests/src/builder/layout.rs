//! Blocks, and where a record of a policy stands in its image.

use super::Policy;

pub const BLOCK: usize = 512;

pub struct Shape {
    pub kind: u8,
    pub size: usize,
    pub in_block: usize,
}

/// Components of either edition.
pub const COMPONENTS: Shape = Shape {
    kind: 67,
    size: 40,
    in_block: 12,
};

/// Labels and users of edition 1.
pub const LABELS_1: Shape = Shape {
    kind: 76,
    size: 24,
    in_block: 21,
};
pub const USERS_1: Shape = Shape {
    kind: 85,
    size: 128,
    in_block: 3,
};

/// Labels and users of edition 2.
pub const LABELS_2: Shape = Shape {
    kind: 76,
    size: 48,
    in_block: 10,
};
pub const USERS_2: Shape = Shape {
    kind: 85,
    size: 200,
    in_block: 2,
};

/// The blocks of one kind.
pub struct Run {
    pub shape: &'static Shape,
    pub first: usize,
    pub count: usize,
}

impl Run {
    pub fn blocks(&self) -> usize {
        self.count.div_ceil(self.shape.in_block)
    }

    /// The number of records in the run's last block.
    pub fn in_last(&self) -> usize {
        self.count - (self.blocks() - 1) * self.shape.in_block
    }

    pub fn at(&self, place: usize) -> RecordAt {
        let block = self.first + place / self.shape.in_block;
        let record = place % self.shape.in_block;
        RecordAt {
            kind: self.shape.kind,
            block,
            record,
            offset: block * BLOCK + 4 + record * self.shape.size,
        }
    }
}

/// Where a record stands: its block and the block's kind, its place in the block and its first byte in
/// the image.
#[derive(Clone, Copy, Debug)]
pub struct RecordAt {
    pub kind: u8,
    pub block: usize,
    pub record: usize,
    pub offset: usize,
}

impl Policy {
    /// The runs of components, labels and users.
    pub fn runs(&self) -> [Run; 3] {
        let kinds = [
            (&COMPONENTS, self.components()),
            (self.edition.labels(), self.labels.len()),
            (self.edition.users(), self.users.len()),
        ];
        let mut next = 1;
        kinds.map(|(shape, count)| {
            let run = Run {
                shape,
                first: next,
                count,
            };
            next += run.blocks();
            run
        })
    }

    pub fn component_at(&self, place: usize) -> RecordAt {
        self.runs()[0].at(place)
    }

    pub fn group_at(&self, place: usize) -> RecordAt {
        self.component_at(self.levels.len() + self.compartments.len() + place)
    }

    pub fn label_at(&self, place: usize) -> RecordAt {
        self.runs()[1].at(place)
    }

    pub fn user_at(&self, place: usize) -> RecordAt {
        self.runs()[2].at(place)
    }
}

/// The check of a block: byte i adds to the first sum once and to the second as often as sums are
/// taken from there on.
pub fn sums(block: &[u8]) -> [u8; 2] {
    let weighted = |(at, &byte): (usize, &u8)| (510 - at as u32) * u32::from(byte);
    let a: u32 = block[..510].iter().map(|&byte| u32::from(byte)).sum();
    let b: u32 = block[..510].iter().enumerate().map(weighted).sum();
    [(a % 255) as u8, (b % 255) as u8]
}

/// Writes a block's check. A block that the image does not hold whole is left alone.
pub fn seal(image: &mut [u8], block: usize) {
    if let Some(bytes) = image.get_mut(block * BLOCK..(block + 1) * BLOCK) {
        let check = sums(bytes);
        bytes[510..].copy_from_slice(&check);
    }
}
