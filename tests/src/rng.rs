//! Splitmix64. Its whole state is one number, so a seed names a test case.

use crate::builder::Set;

pub struct Rng(u64);

impl Rng {
    pub fn new(seed: u64) -> Rng {
        Rng(seed)
    }

    pub fn word(&mut self) -> u64 {
        self.0 = self.0.wrapping_add(0x9e37_79b9_7f4a_7c15);
        let mut z = self.0;
        z = (z ^ (z >> 30)).wrapping_mul(0xbf58_476d_1ce4_e5b9);
        z = (z ^ (z >> 27)).wrapping_mul(0x94d0_49bb_1331_11eb);
        z ^ (z >> 31)
    }

    /// A number below `count`, which is not 0.
    pub fn index(&mut self, count: usize) -> usize {
        (self.word() % count as u64) as usize
    }

    /// A number from `low` to `high`, both included.
    pub fn range(&mut self, low: usize, high: usize) -> usize {
        low + self.index(high - low + 1)
    }

    /// A number from `low` on and below `count`, if there is one.
    pub fn place(&mut self, low: usize, count: usize) -> Option<usize> {
        (count > low).then(|| self.range(low, count - 1))
    }

    /// A place in `set`, if it has one.
    pub fn place_in(&mut self, set: Set) -> Option<usize> {
        let skipped = self.place(0, set.count())?;
        set.places().nth(skipped)
    }

    /// A number from `low` to `high`, often one of these two.
    pub fn with_ends(&mut self, low: usize, high: usize) -> usize {
        match self.index(4) {
            0 => low,
            1 => high,
            _ => self.range(low, high),
        }
    }

    /// True once in `times`.
    pub fn once_in(&mut self, times: usize) -> bool {
        self.index(times) == 0
    }

    pub fn byte(&mut self) -> u8 {
        self.word() as u8
    }

    /// Any byte but `value`.
    pub fn byte_but(&mut self, value: u8) -> u8 {
        value.wrapping_add(self.range(1, 255) as u8)
    }

    /// A byte that is not zero.
    pub fn nonzero(&mut self) -> u8 {
        self.byte_but(0)
    }

    pub fn pick<'a, T>(&mut self, items: &'a [T]) -> &'a T {
        &items[self.index(items.len())]
    }

    /// Some of the places in `set`: none, all, few, many or about half of them.
    pub fn subset(&mut self, set: Set) -> Set {
        match self.index(8) {
            0 => Set::NONE,
            1 => set,
            2 if set.count() > 64 => self.few(set),
            2 | 3 => self.sift(set, |rng| rng.word() & rng.word() & rng.word()),
            4 | 5 => self.sift(set, |rng| rng.word() | rng.word()),
            _ => self.half(set),
        }
    }

    /// About half of the places in `set`.
    pub fn half(&mut self, set: Set) -> Set {
        self.sift(set, Rng::word)
    }

    /// One to four of the places in `set`, if it has any.
    pub fn few(&mut self, set: Set) -> Set {
        let count = self.range(1, 4);
        (0..count).filter_map(|_| self.place_in(set)).collect()
    }

    /// The places in `set` that random words have too. Words are drawn for as much as the set needs, so
    /// that a set of few places costs one.
    fn sift(&mut self, set: Set, draw: fn(&mut Rng) -> u64) -> Set {
        let mut words = set.words();
        for (at, word) in words.iter_mut().enumerate() {
            if at == 0 || *word != 0 {
                *word &= draw(self);
            }
        }
        Set::from_words(words)
    }

    pub fn shuffle<T>(&mut self, items: &mut [T]) {
        for last in (1..items.len()).rev() {
            items.swap(last, self.index(last + 1));
        }
    }
}
