//! Whether all records keep their rules, with no thought for the first one that doesn't: what is wrong is gathered and
//! asked about once. The records of a kind or class come in slices, as they stand in blocks or in a list.

use super::counts::Counts;
use super::groups::Ancestors;
use super::names::{self, Earlier, Wrong};
use super::records::set_at;

const NO_PARENT: u64 = 0xff << 16;

/// Whether the components of a class keep their rules. What follows a name is handed on, to be given back as the numeric
/// form alone where nothing is wrong with it.
fn class_is_fine<'a>(
    slices: impl Iterator<Item = &'a [[u8; 40]]>,
    class: u16,
    earlier: &mut Earlier<'a>,
    mut tail: impl FnMut(u64) -> u64,
) -> bool {
    let (mut wrong, mut heads, mut before) = (Wrong::new(), 0, -1);
    earlier.clear();
    for record in slices.flatten() {
        let head = u16::from_le_bytes([record[0], record[1]]);
        heads |= (head & 0xe0ff) ^ class;
        wrong.add(
            record[..32].try_into().unwrap(),
            &names::IN_COMPONENTS,
            record[1],
        );
        let number = tail(set_at(record, 32)) as i64;
        if number <= before || !earlier.add(record) {
            return false;
        }
        before = number;
    }
    heads == 0 && before <= 9_999 && wrong.is_none(2)
}

/// The table of ancestors, if all components keep their rules. The slices of a class are asked for by the place of its
/// first component and its count.
pub fn ancestors<'a, Slices: Iterator<Item = &'a [[u8; 40]]>>(
    counts: &Counts,
    slices: impl Fn(usize, usize) -> Slices,
) -> Option<Ancestors> {
    let mut earlier = Earlier::new();
    let (mut parents, mut group) = ([255; 64], 0);
    let without_parent = |tail: u64| tail ^ NO_PARENT;
    let keep_parent = |tail: u64| {
        parents[group] = (tail >> 16) as u8;
        group = (group + 1) % 64;
        tail & !NO_PARENT
    };
    let [levels, compartments] = [counts.levels, counts.compartments];
    let are_fine = class_is_fine(slices(0, levels), 1, &mut earlier, without_parent)
        && class_is_fine(
            slices(levels, compartments),
            2,
            &mut earlier,
            without_parent,
        )
        && class_is_fine(
            slices(counts.first_group(), counts.groups),
            3,
            &mut earlier,
            keep_parent,
        );
    are_fine
        .then(|| Ancestors::new(&parents, counts.groups))
        .flatten()
}

/// Whether the labels keep their rules.
pub fn labels_are_fine<'a>(slices: impl Iterator<Item = &'a [[u8; 24]]>, counts: &Counts) -> bool {
    let (mut before, mut compartments, mut groups) = (0, 0, 0);
    let levels = counts.levels as u32;
    for records in slices {
        for record in records {
            let [tag, level] = [0, 4].map(|at| number_at(record, at));
            // The bytes after the level are zero.
            if tag <= before || level >= levels {
                return false;
            }
            compartments |= set_at(record, 8);
            groups |= set_at(record, 16);
            before = tag;
        }
    }
    let outside = compartments & outside(counts.compartments) | groups & outside(counts.groups);
    outside == 0 && before <= 99_999_999
}

/// Whether the users keep their rules, those by below too.
pub fn users_are_fine<'a>(
    slices: impl Iterator<Item = &'a [[u8; 128]]>,
    counts: &Counts,
    ancestors: &Ancestors,
) -> bool {
    let not_groups = outside(counts.groups);
    let not_compartments = outside(counts.compartments);
    let (mut wrong, mut bits) = (Wrong::new(), 0);
    let mut before: &[u8; 30] = &[0; 30];
    for record in slices.flatten() {
        wrong.add(
            record[..32].try_into().unwrap(),
            &names::IN_USERS,
            record[0],
        );
        let name: &[u8; 30] = record[1..31].try_into().unwrap();
        let [maximum, minimum, default, row] = [32, 33, 34, 35].map(|at| record[at]);
        let levels_rise = minimum <= row && row <= default && default <= maximum;
        let exists = usize::from(maximum) < counts.levels;
        if !(levels_rise && exists && rises(before, name) && ancestors.user_holds(record)) {
            return false;
        }
        before = name;
        let [read, write, default, row] = [40, 48, 56, 64].map(|at| set_at(record, at));
        let groups = [72, 80, 88, 96].map(|at| set_at(record, at));
        let groups = groups[0] | groups[1] | groups[2] | groups[3];
        bits |= read & not_compartments | (write | default) & !read | row & !(default & write);
        bits |= groups & not_groups;
        bits |= set_at(record, 104) | set_at(record, 112) | set_at(record, 120);
        bits |= u64::from(number_at(record, 36) | u32::from(record[0] & 0xe0 | record[31] & 0x80));
    }
    bits == 0 && wrong.is_none(1)
}

/// Whether a name comes after another in the order of bytes. Mostly the first eight tell.
#[inline(always)]
fn rises(before: &[u8; 30], name: &[u8; 30]) -> bool {
    let [first, second] = [before, name].map(|name| set_at(name, 0).swap_bytes());
    first < second || first == second && before < name
}

/// The places of a set that there aren't.
fn outside(count: usize) -> u64 {
    u64::MAX.checked_shl(count as u32).unwrap_or(0)
}

fn number_at(record: &[u8], at: usize) -> u32 {
    u32::from_le_bytes(record[at..at + 4].try_into().unwrap())
}
