//! Bytes that begin at any address, with others around them.

const AROUND: u8 = 0xa5;

pub struct Shifted {
    shift: usize,
    length: usize,
    bytes: Vec<u8>,
}

impl Shifted {
    /// The shift is below 8.
    pub fn new(shift: usize, inner: &[u8]) -> Shifted {
        let mut bytes = vec![AROUND; inner.len() + 8];
        bytes[shift..shift + inner.len()].copy_from_slice(inner);
        Shifted {
            shift,
            length: inner.len(),
            bytes,
        }
    }

    pub fn inner(&mut self) -> &mut [u8] {
        &mut self.bytes[self.shift..][..self.length]
    }

    pub fn assert_around(&self) {
        let (before, rest) = self.bytes.split_at(self.shift);
        let around = [before, &rest[self.length..]].concat();
        assert_eq!(around, [AROUND; 8]);
    }
}
