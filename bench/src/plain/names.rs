//! Names in records: 30 bytes after their length, of which those after the name are zero.

use super::records::set_at;

/// The first 32 bytes of a record, in which the name and its length stand.
pub type Front = [u8; 32];

/// For each length, with ones for the bytes of a front that the name has. A front of a length that no name has is
/// never right.
pub type Inside = [Front; 32];

pub static IN_COMPONENTS: Inside = inside(2);
pub static IN_USERS: Inside = inside(1);
static IN_TEXTS: Inside = inside(0);

/// Of names that begin at a byte of the front.
const fn inside(first: usize) -> Inside {
    let mut table = [[0; 32]; 32];
    let mut length = 0;
    while length < 32 {
        let mut at = first;
        while at < 32 {
            table[length][at] = match length {
                0 | 31 => 1,
                _ if at < first + length => 255,
                _ => 0,
            };
            at += 1;
        }
        length += 1;
    }
    table
}

/// What is wrong with the names that were seen, byte by byte of their fronts.
pub struct Wrong(Front);

impl Wrong {
    pub fn new() -> Wrong {
        Wrong([0; 32])
    }

    /// The length has to be below 32. All bytes are looked at, several at once.
    #[inline(always)]
    pub fn add(&mut self, front: &Front, inside: &Inside, length: u8) {
        let inside = &inside[usize::from(length % 32)];
        for at in 0..32 {
            let byte = front[at];
            self.0[at] |= (good(byte) ^ inside[at]) | (byte & !inside[at]);
        }
    }

    /// Whether nothing is wrong with names that begin at a byte of the front.
    pub fn is_none(&self, first: usize) -> bool {
        self.0[first..first + 30].iter().fold(0, |all, it| all | it) == 0
    }
}

/// Ones for a byte that a name may have, else zeros.
#[inline(always)]
fn good(byte: u8) -> u8 {
    let is_good = (byte.wrapping_sub(b'A') < 26) | (byte.wrapping_sub(b'0') < 10) | (byte == b'_');
    if is_good {
        255
    } else {
        0
    }
}

/// Bytes of a text with capitals for small letters, and how many of the first of them a name may have.
#[inline(always)]
pub fn capitals(front: &Front) -> (Front, usize) {
    let (mut capitals, mut goods) = ([0; 32], [0; 32]);
    for at in 0..32 {
        let is_small = front[at].wrapping_sub(b'a') < 26;
        capitals[at] = front[at] - if is_small { 32 } else { 0 };
        goods[at] = good(capitals[at]);
    }
    let wrong = |at: usize| !set_at(&goods, at);
    let mut at = 0;
    while at < 24 && wrong(at) == 0 {
        at += 8;
    }
    (capitals, at + wrong(at).trailing_zeros() as usize / 8)
}

/// The 30 bytes of a name in four words, of which the last two overlap.
pub type Words = [u64; 4];

#[inline(always)]
pub fn words(field: &[u8; 30]) -> Words {
    [0, 8, 16, 22].map(|at| set_at(field, at))
}

/// The first bytes, up to 30, as a name.
#[inline(always)]
pub fn name_in(front: &Front, length: usize) -> Words {
    let [own, inside] = [front, &IN_TEXTS[length]].map(|it| words(it.first_chunk().unwrap()));
    std::array::from_fn(|word| own[word] & inside[word])
}

/// The name of a component.
#[inline(always)]
pub fn name_of(record: &[u8; 40]) -> Words {
    words(record[2..32].try_into().unwrap())
}

/// The components of a class so far. A bit that isn't set tells that a name is new; where it is set all are asked.
pub struct Earlier<'a> {
    bits: [u64; 64],
    records: [&'a [u8; 40]; 64],
    count: usize,
}

impl<'a> Earlier<'a> {
    pub fn new() -> Earlier<'a> {
        Earlier {
            bits: [0; 64],
            records: [&[0; 40]; 64],
            count: 0,
        }
    }

    /// To the next class.
    pub fn clear(&mut self) {
        self.bits = [0; 64];
        self.count = 0;
    }

    /// Adds a component, unless its name was there or there are 64.
    #[inline(always)]
    pub fn add(&mut self, record: &'a [u8; 40]) -> bool {
        let key = key(&name_of(record));
        let bits = &mut self.bits[key / 64];
        let bit = 1 << (key % 64);
        let may_repeat = *bits & bit != 0;
        *bits |= bit;
        if may_repeat && self.has(record) || self.count == 64 {
            return false;
        }
        self.records[self.count] = record;
        self.count += 1;
        true
    }

    #[inline(never)]
    fn has(&self, record: &[u8; 40]) -> bool {
        let mut records = self.records[..self.count].iter();
        records.any(|earlier| earlier[2..32] == record[2..32])
    }
}

/// Below 4,096.
#[inline(always)]
pub fn key([a, b, c, d]: &Words) -> usize {
    let sum = c.wrapping_add(d.wrapping_mul(2)).wrapping_mul(4);
    let sum = sum.wrapping_add(b.wrapping_mul(3)).wrapping_add(*a);
    (sum.wrapping_mul(0x9e37_79b9_7f4a_7c15) >> 52) as usize
}
