//! Plans that make a file whole: by the rules, by the library and by its inner calls.

use crate::library::{answered, created};
use crate::stated::located;
use crate::Answered;
use mukthiban_ffi::tested::{mukthiban_tested_plan_apply, mukthiban_tested_plan_check, mukthiban_tested_plan_find};
use mukthiban_ffi::{mukthiban_plan_apply, mukthiban_plan_check, mukthiban_plan_find, Planned};
use rules::answer::{number, Outcome};
use rules::plan;

#[derive(Clone, Copy, PartialEq, Eq, Debug)]
pub enum PlanCall {
    Check,
    Apply,
    Find,
}

/// What is lent to a call of a plan, which the list is.
#[derive(Clone, PartialEq, Eq, Debug)]
pub struct Plan {
    pub table: Vec<u8>,
    pub data: Vec<u8>,
    pub block_len: usize,
    pub work: Vec<u32>,
    pub list: Vec<u32>,
}

fn planned(p: Planned) -> Answered {
    Answered::with(p.answer, &[p.count as u64]).at(p.entry, p.rule)
}

fn one(outcome: Outcome<usize>) -> Answered {
    Answered::with(number(&outcome), &[outcome.unwrap_or(0) as u64])
}

impl Plan {
    /// What the rules answer, which change what is lent.
    pub fn stated(&mut self, call: PlanCall, first: usize) -> Answered {
        let Plan { table, data, block_len: len, work, list } = self;
        let said = match call {
            PlanCall::Check => Answered::number(number(&plan::check(table, data, *len, work, first, list))),
            PlanCall::Apply => one(plan::apply(table, data, *len, work, first, list)),
            PlanCall::Find => one(plan::find(table, data, *len, work, first, list)),
        };
        located(said, &self.table)
    }

    /// What the library answers, which changes what is lent.
    pub fn library(&mut self, call: PlanCall, first: usize) -> Answered {
        let (table, table_len) = (self.table.as_mut_ptr(), self.table.len());
        let (data, data_len, len) = (self.data.as_mut_ptr(), self.data.len(), self.block_len);
        let (work, work_len) = (self.work.as_mut_ptr(), self.work.len());
        let (list, list_len) = (self.list.as_mut_ptr(), self.list.len());
        // SAFETY: here and below, pointers and lengths are those of vectors, which do not overlap.
        unsafe {
            match call {
                PlanCall::Check => answered(mukthiban_plan_check(table, table_len, data, data_len, len, work, work_len, first, list, list_len)),
                PlanCall::Apply => created(mukthiban_plan_apply(table, table_len, data, data_len, len, work, work_len, first, list, list_len)),
                PlanCall::Find => planned(mukthiban_plan_find(table, table_len, data, data_len, len, work, work_len, first, list, list_len)),
            }
        }
    }

    /// The same by the inner calls, to be used only on a sound table with data that fit: their work list is n places of 0.
    pub fn inner(&mut self, call: PlanCall, first: usize) -> Answered {
        let n = self.table.len() / 8 - 1;
        self.work[..n].fill(0);
        let (table, table_len) = (self.table.as_mut_ptr(), self.table.len());
        let (data, data_len, len) = (self.data.as_mut_ptr(), self.data.len(), self.block_len);
        let work = self.work.as_mut_ptr();
        let (list, list_len) = (self.list.as_mut_ptr(), self.list.len());
        unsafe {
            match call {
                PlanCall::Check => answered(mukthiban_tested_plan_check(table, table_len, n, work, n, first, list, list_len)),
                PlanCall::Apply => {
                    created(mukthiban_tested_plan_apply(table, table_len, n, data, data_len, len, work, n, first, list, list_len))
                }
                PlanCall::Find => planned(mukthiban_tested_plan_find(table, table_len, n, work, n, first, list, list_len)),
            }
        }
    }
}
