//! Merge of free neighbours: by the rules, by the library and by its inner call.

use crate::library::answered;
use crate::stated::located;
use crate::Answered;
use mukthiban_ffi::mukthiban_fat_merge;
use mukthiban_ffi::tested::mukthiban_tested_fat_merge;

/// What is lent to a merge.
#[derive(Clone, PartialEq, Eq, Debug)]
pub struct Merge {
    pub table: Vec<u8>,
    pub block_len: usize,
    pub work: Vec<u32>,
}

impl Merge {
    /// What the rules answer, which change what is lent.
    pub fn stated(&mut self) -> Answered {
        let merged = rules::merge::merge(&mut self.table, self.block_len, &mut self.work);
        let number = merged.map_or_else(|refusal| refusal.number(), |()| 0);
        located(Answered::number(number), &self.table)
    }

    /// What the library answers, which changes what is lent.
    pub fn library(&mut self) -> Answered {
        let Merge { table, block_len, work } = self;
        // SAFETY: here and below, pointers and lengths are those of vectors, which do not overlap.
        answered(unsafe { mukthiban_fat_merge(table.as_mut_ptr(), table.len(), *block_len, work.as_mut_ptr(), work.len()) })
    }

    /// The same by the inner call, to be used only on a sound table: its work list is n places of 0.
    pub fn inner(&mut self) -> Answered {
        let Merge { table, block_len, work } = self;
        let n = table.len() / 8 - 1;
        work[..n].fill(0);
        answered(unsafe { mukthiban_tested_fat_merge(table.as_mut_ptr(), table.len(), n, *block_len, work.as_mut_ptr(), n) })
    }
}
