//! The rules of one record. What is known of the records before it is handed on.

use super::all_zero;
use super::counts::Counts;
use super::names::Earlier;

/// The numeric form before this one, and the names of the class so far.
pub struct Before<'a> {
    number: Option<u16>,
    names: Earlier<'a>,
}

impl<'a> Before<'a> {
    pub fn new() -> Before<'a> {
        Before {
            number: None,
            names: Earlier::new(),
        }
    }
}

pub fn component_holds<'a>(
    record: &'a [u8; 40],
    place: usize,
    counts: &Counts,
    before: &mut Before<'a>,
) -> bool {
    let (class, first) = if place < counts.levels {
        (1, 0)
    } else if place < counts.first_group() {
        (2, counts.levels)
    } else {
        (3, counts.first_group())
    };
    if place == first {
        before.number = None;
        before.names.clear();
    }
    let parent = record[34];
    let number = u16::from_le_bytes([record[32], record[33]]);
    let holds = record[0] == class
        && name_holds(record[1..32].try_into().unwrap())
        && number <= 9_999
        && before.number.is_none_or(|before| before < number)
        && (parent == 255 || class == 3 && usize::from(parent) < counts.groups)
        && all_zero(&record[35..])
        && before.names.add(record);
    before.number = Some(number);
    holds
}

/// Which bytes an image's name may hold.
const IN_NAMES: [bool; 256] = {
    let mut table = [false; 256];
    let mut byte = 0;
    while byte < 256 {
        table[byte] = matches!(byte as u8, b'A'..=b'Z' | b'0'..=b'9' | b'_');
        byte += 1;
    }
    table
};

/// A length and 30 bytes: a name and zeros.
fn name_holds(field: &[u8; 31]) -> bool {
    let length = usize::from(field[0]);
    if length == 0 || length > 30 {
        return false;
    }
    let (name, rest) = field[1..].split_at(length);
    name.iter().all(|&byte| IN_NAMES[usize::from(byte)]) && all_zero(rest)
}

pub fn label_holds(record: &[u8; 24], counts: &Counts, before: &mut u32) -> bool {
    let tag = u32::from_le_bytes(record[..4].try_into().unwrap());
    let holds = tag > *before
        && tag <= 99_999_999
        && usize::from(record[4]) < counts.levels
        && all_zero(&record[5..8])
        && set_exists(set_at(record, 8), counts.compartments)
        && set_exists(set_at(record, 16), counts.groups);
    *before = tag;
    holds
}

pub fn user_holds(record: &[u8; 128], counts: &Counts, before: &[u8]) -> bool {
    let [maximum, minimum, default, row] = [record[32], record[33], record[34], record[35]];
    let [read, write, by_default, by_row] = [40, 48, 56, 64].map(|at| set_at(record, at));
    let groups = [72, 80, 88, 96].map(|at| set_at(record, at));
    let field: &[u8; 31] = record[..31].try_into().unwrap();
    name_holds(field)
        && before < &record[1..][..usize::from(record[0])]
        && record[31] < 128
        && minimum <= row
        && row <= default
        && default <= maximum
        && usize::from(maximum) < counts.levels
        && all_zero(&record[36..40])
        && all_zero(&record[104..])
        && set_exists(read, counts.compartments)
        && (write | by_default) & !read == 0
        && by_row & !(by_default & write) == 0
        && set_exists(groups.iter().fold(0, |all, set| all | set), counts.groups)
}

pub fn set_at(record: &[u8], at: usize) -> u64 {
    u64::from_le_bytes(record[at..at + 8].try_into().unwrap())
}

pub fn set_exists(set: u64, count: usize) -> bool {
    count >= 64 || set >> count == 0
}
