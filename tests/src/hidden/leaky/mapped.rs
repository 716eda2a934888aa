//! Mapped reads that let hidden rows show.

use super::{refused, Leak, Leaky};
use crate::ffi::Answer;
use crate::hidden::program::{HostCall, Program};
use crate::row_calls::{Lent, RowCall};

impl Leaky<'_> {
    /// What is refused by 19 or 12 has no leak.
    pub fn read_mapped(&self, ask: &HostCall, map: &[u8], lent: &mut Lent) -> Answer {
        let old = self.old_map.replace(map.to_vec());
        let mut by_model = lent.clone();
        let answer = self.model.ask(ask, &mut by_model);
        let is_right = matches!(answer, Answer::Done(_)) || answer == refused(13, 0);
        let is_wrong = answer == refused(20, 0) && self.is_whole(map);
        match self.leak {
            Leak::MapTaken if is_wrong => self.hand_out(map, false, lent),
            Leak::MapOld if is_right && self.is_whole(&old) => self.hand_out(&old, false, lent),
            Leak::MapLookedUp if is_wrong && self.is_right_as_far_as_looked_up(map, lent) => {
                self.hand_out(map, false, lent)
            }
            Leak::MapUnknown if is_right => self.hand_out(map, true, lent),
            _ => {
                *lent = by_model;
                answer
            }
        }
    }

    fn is_whole(&self, map: &[u8]) -> bool {
        map.len() == self.scene.policy.labels.len().div_ceil(8)
    }

    /// The rows whose bits are set in a map, and those of unknown tags or not.
    fn rows_by(&self, map: &[u8], unknown: bool, table: &[u8]) -> Vec<u8> {
        let is_shown = |row: &&[u8]| self.scene.bit_of(row, map).unwrap_or(unknown);
        let rows: Vec<&[u8]> = self.rows(table).filter(is_shown).collect();
        rows.concat()
    }

    fn hand_out(&self, map: &[u8], unknown: bool, lent: &mut Lent) -> Answer {
        let rows = self.rows_by(map, unknown, &lent.table);
        if rows.len() > lent.buffer.len() {
            return refused(13, 0);
        }
        lent.buffer[..rows.len()].copy_from_slice(&rows);
        Answer::Done((rows.len() / self.scene.width) as u64)
    }

    /// Whether the map hands out the rows that a plain read does.
    fn is_right_as_far_as_looked_up(&self, map: &[u8], lent: &Lent) -> bool {
        let width = self.scene.width;
        let mut plain = Lent {
            buffer: vec![0; lent.table.len()],
            ..lent.clone()
        };
        let read = HostCall::Rows(RowCall::Read { width });
        let Answer::Done(count) = self.model.ask(&read, &mut plain) else {
            return false;
        };
        plain.buffer[..count as usize * width] == self.rows_by(map, false, &lent.table)
    }
}
