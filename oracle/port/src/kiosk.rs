//! The kiosk's test and create: by the rules, by the library and by its inner calls.

use crate::library::created;
use crate::stated::located;
use crate::Answered;
use mukthiban_ffi::tested::{mukthiban_tested_kiosk_create, mukthiban_tested_kiosk_test};
use mukthiban_ffi::{mukthiban_kiosk_create, mukthiban_kiosk_test, Profiled};
use rules::answer::number;
use rules::audit::Both;
use rules::kiosk;
use rules::tree::Four;

/// What is lent to the test: the block table, data and block length, the four entry tables, work list.
#[derive(Clone, PartialEq, Eq, Debug)]
pub struct Kiosk {
    pub table: Vec<u8>,
    pub data: Vec<u8>,
    pub block_len: usize,
    pub dir_hash: Vec<u8>,
    pub dir_table: Vec<u8>,
    pub file_hash: Vec<u8>,
    pub file_table: Vec<u8>,
    pub work: Vec<u32>,
}

fn profiled(p: Profiled) -> Answered {
    Answered::with(p.answer, &[p.broken.into()]).at(p.entry, p.rule)
}

impl Kiosk {
    /// What the rules answer, which change what is lent.
    pub fn stated(&mut self) -> Answered {
        let Kiosk { table, data, block_len, dir_hash, dir_table, file_hash, file_table, work } = self;
        let four = Four { dir_hash, dir_table, file_hash, file_table };
        let said = kiosk::test(Both { table, data, block_len: *block_len, four }, work);
        located(Answered::with(number(&said), &[said.unwrap_or(0).into()]), table)
    }

    /// What the library answers, which changes what is lent.
    pub fn library(&mut self) -> Answered {
        // SAFETY: here and below, pointers and lengths are those of vectors, which do not overlap.
        profiled(unsafe {
            mukthiban_kiosk_test(
                self.table.as_ptr(), self.table.len(),
                self.data.as_ptr(), self.data.len(),
                self.block_len,
                self.dir_hash.as_ptr(), self.dir_hash.len(),
                self.dir_table.as_ptr(), self.dir_table.len(),
                self.file_hash.as_ptr(), self.file_hash.len(),
                self.file_table.as_ptr(), self.file_table.len(),
                self.work.as_mut_ptr(), self.work.len(),
            )
        })
    }

    /// The same by the inner call, to be used only on sound tables: its places of the work list are 0.
    pub fn inner(&mut self) -> Answered {
        let n = self.table.len() / 8 - 1;
        let rooms = self.dir_table.len() / 40 + self.file_table.len() / 48;
        self.work[..n + rooms].fill(0);
        profiled(unsafe {
            mukthiban_tested_kiosk_test(
                self.table.as_ptr(), self.table.len(), n,
                self.block_len,
                self.dir_table.as_ptr(), self.dir_table.len(),
                self.file_table.as_ptr(), self.file_table.len(),
                self.work.as_mut_ptr(), n + self.file_table.len() / 48,
            )
        })
    }
}

/// What is lent to the create.
#[derive(Clone, PartialEq, Eq, Debug)]
pub struct KioskCreate {
    pub table: Vec<u8>,
    pub data: Vec<u8>,
    pub block_len: usize,
    pub work: Vec<u32>,
}

impl KioskCreate {
    /// What the rules answer, which change what is lent.
    pub fn stated(&mut self, count: usize) -> Answered {
        let KioskCreate { table, data, block_len, work } = self;
        let said = kiosk::create(table, data, *block_len, work, count);
        located(Answered::with(number(&said), &[said.unwrap_or(0) as u64]), table)
    }

    /// What the library answers, which changes what is lent.
    pub fn library(&mut self, count: usize) -> Answered {
        created(unsafe {
            mukthiban_kiosk_create(
                self.table.as_mut_ptr(), self.table.len(),
                self.data.as_ptr(), self.data.len(),
                self.block_len,
                self.work.as_mut_ptr(), self.work.len(),
                count,
            )
        })
    }

    /// The same by the inner call, to be used only on a sound table.
    pub fn inner(&mut self, count: usize) -> Answered {
        let n = self.table.len() / 8 - 1;
        self.work[..n].fill(0);
        created(unsafe { mukthiban_tested_kiosk_create(self.table.as_mut_ptr(), self.table.len(), n, self.block_len, count) })
    }
}
