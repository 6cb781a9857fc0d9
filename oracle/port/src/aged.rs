//! Whether the entry tables can be an honest writer's: by the rules and by the library.

use crate::{Answered, Tree};
use mukthiban_ffi::mukthiban_tree_aged;
use rules::aged::aged;
use rules::tree::Four;

impl Tree {
    /// What the rules answer, which change the work list alone.
    pub fn aged_stated(&mut self) -> Answered {
        let Tree { dir_hash, dir_table, file_hash, file_table, work, .. } = self;
        match aged(Four { dir_hash, dir_table, file_hash, file_table }, work) {
            Ok(told) => Answered::with(0, &[told.table.into(), told.inode.into()]),
            Err(refusal) => Answered::number(refusal.number()),
        }
    }

    /// What the library answers, which changes the work list alone.
    pub fn aged_library(&mut self) -> Answered {
        // SAFETY: pointers and lengths are those of vectors, which do not overlap.
        let a = unsafe {
            mukthiban_tree_aged(
                self.dir_hash.as_ptr(), self.dir_hash.len(),
                self.dir_table.as_ptr(), self.dir_table.len(),
                self.file_hash.as_ptr(), self.file_hash.len(),
                self.file_table.as_ptr(), self.file_table.len(),
                self.work.as_mut_ptr(), self.work.len(),
            )
        };
        Answered::with(a.answer, &[a.table.into(), a.inode.into()])
    }
}
