//! The audit of both layers: by the rules, by the library and by its inner call.

use crate::stated::located;
use crate::Answered;
use mukthiban_ffi::mukthiban_volume_audit;
use mukthiban_ffi::tested::mukthiban_tested_volume_audit;
use rules::audit::{audit, Both};
use rules::tree::Four;

/// What is lent to an audit: the block table, data and block length, the four entry tables, work list and list.
#[derive(Clone, PartialEq, Eq, Debug)]
pub struct Audit {
    pub table: Vec<u8>,
    pub data: Vec<u8>,
    pub block_len: usize,
    pub dir_hash: Vec<u8>,
    pub dir_table: Vec<u8>,
    pub file_hash: Vec<u8>,
    pub file_table: Vec<u8>,
    pub work: Vec<u32>,
    pub list: Vec<u32>,
}

impl Audit {
    /// What the rules answer, which change what is lent.
    pub fn stated(&mut self) -> Answered {
        let Audit { table, data, block_len, dir_hash, dir_table, file_hash, file_table, work, list } = self;
        let four = Four { dir_hash, dir_table, file_hash, file_table };
        let answered = match audit(Both { table, data, block_len: *block_len, four }, work, list) {
            Ok(count) => Answered::with(0, &[count as u64]),
            Err(refusal) => Answered::number(refusal.number()),
        };
        located(answered, table)
    }

    /// What the library answers, which changes what is lent.
    pub fn library(&mut self) -> Answered {
        // SAFETY: pointers and lengths are those of vectors, which do not overlap.
        let a = unsafe {
            mukthiban_volume_audit(
                self.table.as_ptr(), self.table.len(),
                self.data.as_ptr(), self.data.len(),
                self.block_len,
                self.dir_hash.as_ptr(), self.dir_hash.len(),
                self.dir_table.as_ptr(), self.dir_table.len(),
                self.file_hash.as_ptr(), self.file_hash.len(),
                self.file_table.as_ptr(), self.file_table.len(),
                self.work.as_mut_ptr(), self.work.len(),
                self.list.as_mut_ptr(), self.list.len(),
            )
        };
        Answered::with(a.answer, &[a.count as u64]).at(a.entry, a.rule)
    }
    /// The same by the inner call, to be used only on sound tables: its places of the work list are 0.
    pub fn inner(&mut self) -> Answered {
        let n = self.table.len() / 8 - 1;
        let rooms = self.dir_table.len() / 40 + self.file_table.len() / 48;
        self.work[..n + rooms].fill(0);
        // SAFETY: as above, and the tables are sound.
        let a = unsafe {
            mukthiban_tested_volume_audit(
                self.table.as_ptr(), self.table.len(), n,
                self.block_len,
                self.file_table.as_ptr(), self.file_table.len(),
                self.work.as_mut_ptr(), n + self.file_table.len() / 48,
                self.list.as_mut_ptr(), self.list.len(),
            )
        };
        Answered::with(a.answer, &[a.count as u64]).at(a.entry, a.rule)
    }
}
