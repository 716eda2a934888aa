//! What a session may read, found once for a call.

use super::labels::Labels;
use super::records::set_at;
use super::sessions::Lent;
use super::verdicts::{COMPACCESS, FULL, READ};

pub struct Reader<'a> {
    pub labels: Labels<'a>,
    /// Unknown tags too.
    pub reads_all: bool,
    has_compaccess: bool,
    level: u8,
    /// Those that the session lacks.
    lacking: u64,
    /// What lies below the session's groups.
    groups: u64,
}

impl<'a> Reader<'a> {
    pub fn new(lent: &Lent<'a>) -> Reader<'a> {
        let label = &lent.session.label;
        Reader {
            labels: lent.policy.labels(),
            reads_all: lent.privileges & (READ | FULL) != 0,
            has_compaccess: lent.privileges & COMPACCESS != 0,
            level: label.level,
            lacking: !label.compartments,
            groups: lent.policy.ancestors.below(label.groups),
        }
    }

    pub fn may_read(&self, tag: u32) -> bool {
        let record = || self.labels.with(tag);
        self.reads_all || record().is_some_and(|record| self.reads(record))
    }

    /// Of a label record. Most are decided by the level or the compartments.
    #[inline(always)]
    pub fn reads(&self, record: &[u8; 24]) -> bool {
        if record[4] > self.level || set_at(record, 8) & self.lacking != 0 {
            return false;
        }
        let groups = set_at(record, 16);
        groups == 0 || groups & self.groups != 0 || self.has_compaccess && set_at(record, 8) != 0
    }
}
