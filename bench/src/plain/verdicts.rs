//! Verdicts on a row's tag.

use super::label::Label;
use super::sessions::Lent;

pub const READ: u8 = 1;
pub const FULL: u8 = 2;
pub const COMPACCESS: u8 = 4;

pub fn may_read(lent: &Lent, tag: u32) -> bool {
    lent.privileges & (READ | FULL) != 0
        || lent
            .policy
            .labels()
            .with(tag)
            .is_some_and(|row| is_readable(lent, &Label::of_record(row)))
}

pub fn may_write(lent: &Lent, tag: u32) -> bool {
    lent.privileges & FULL != 0
        || lent
            .policy
            .labels()
            .with(tag)
            .is_some_and(|row| is_writable(lent, &Label::of_record(row)))
}

fn is_readable(lent: &Lent, row: &Label) -> bool {
    let label = &lent.session.label;
    let by_groups = || {
        let groups = label.groups;
        row.groups == 0
            || lent
                .policy
                .ancestors
                .meets_below(row.groups, groups, groups)
    };
    row.level <= label.level
        && row.compartments & !label.compartments == 0
        && (has_compaccess(lent, row) || by_groups())
}

fn is_writable(lent: &Lent, row: &Label) -> bool {
    let label = &lent.session.label;
    if row.level < lent.minimum || row.level > label.level {
        return false;
    }
    let all_written = row.compartments & !(label.compartments & lent.write_compartments) == 0;
    if row.groups == 0 || has_compaccess(lent, row) && all_written {
        return all_written;
    }
    let ancestors = &lent.policy.ancestors;
    row.compartments & !label.compartments == 0
        && ancestors.meets_below(row.groups, label.groups, lent.write_groups)
}

/// Whether the row's compartments alone may be enough.
fn has_compaccess(lent: &Lent, row: &Label) -> bool {
    lent.privileges & COMPACCESS != 0 && row.compartments != 0
}
