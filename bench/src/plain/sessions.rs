//! Sessions: opening, and new labels. The groups below a set are never written down: each group that is
//! asked for is looked up in the table of ancestors.

use super::label::{Label, Session};
use super::policy::Policy;
use super::records::set_at;
use super::text;
use brawnesk_tests::model::Refusal;

pub fn open(policy: &Policy, name: &[u8]) -> Result<Session, Refusal> {
    let place = policy.user_named(name).ok_or(Refusal::User)?;
    let record = policy.user(place);
    let label = |level: usize, compartments: usize, groups: usize| Label {
        level: record[level],
        compartments: set_at(record, compartments),
        groups: set_at(record, groups),
    };
    Ok(Session {
        user: place as u8,
        label: label(34, 56, 88),
        row: label(35, 64, 96),
    })
}

/// A session that keeps its rules, with its user's rights.
pub struct Lent<'a> {
    pub policy: &'a Policy<'a>,
    pub session: Session,
    pub privileges: u8,
    pub minimum: u8,
    maximum: u8,
    read_compartments: u64,
    pub write_compartments: u64,
    read_groups: u64,
    pub write_groups: u64,
}

impl<'a> Lent<'a> {
    /// 19 unless the user exists and both labels meet their rules.
    pub fn accept(policy: &'a Policy, session: Option<Session>) -> Result<Lent<'a>, Refusal> {
        let exists = |session: &Session| usize::from(session.user) < policy.counts.users;
        let session = session.filter(exists).ok_or(Refusal::Session)?;
        let record = policy.user(session.user.into());
        let lent = Lent {
            policy,
            session,
            privileges: record[31],
            maximum: record[32],
            minimum: record[33],
            read_compartments: set_at(record, 40),
            write_compartments: set_at(record, 48),
            read_groups: set_at(record, 72),
            write_groups: set_at(record, 80),
        };
        let Session { label, row, .. } = &lent.session;
        let holds = lent.may_have(label, row).is_ok() && lent.may_have_row(label, row).is_ok();
        holds.then_some(lent).ok_or(Refusal::Session)
    }

    pub fn set_label(&self, text: &[u8]) -> Result<Session, Refusal> {
        let label = text::read(self.policy, text)?;
        self.may_have(&label, &self.session.row)?;
        Ok(Session {
            label,
            ..self.session
        })
    }

    pub fn set_row_label(&self, text: &[u8]) -> Result<Session, Refusal> {
        let row = text::read(self.policy, text)?;
        self.may_have_row(&self.session.label, &row)?;
        Ok(Session {
            row,
            ..self.session
        })
    }

    /// The rules of a session label beside a row label.
    fn may_have(&self, label: &Label, row: &Label) -> Result<(), Refusal> {
        if label.level < self.minimum || label.level > self.maximum {
            return Err(Refusal::Level);
        }
        if label.compartments & !self.read_compartments != 0 {
            return Err(Refusal::Compartments);
        }
        let ancestors = &self.policy.ancestors;
        if !ancestors.lies_below(label.groups, self.read_groups) {
            return Err(Refusal::Groups);
        }
        let inside = row.level <= label.level
            && row.compartments & !(label.compartments & self.write_compartments) == 0
            && self.row_groups_hold(label, row);
        inside.then_some(()).ok_or(Refusal::RowLabel)
    }

    /// The rules of a row label beside a session label.
    fn may_have_row(&self, label: &Label, row: &Label) -> Result<(), Refusal> {
        if row.level < self.minimum || row.level > label.level {
            return Err(Refusal::Level);
        }
        if row.compartments & !(label.compartments & self.write_compartments) != 0 {
            return Err(Refusal::Compartments);
        }
        let holds = self.row_groups_hold(label, row);
        holds.then_some(()).ok_or(Refusal::Groups)
    }

    /// Whether a row label's groups lie in the session's write groups.
    fn row_groups_hold(&self, label: &Label, row: &Label) -> bool {
        let ancestors = &self.policy.ancestors;
        ancestors.all_below(row.groups, label.groups, self.write_groups)
    }
}
