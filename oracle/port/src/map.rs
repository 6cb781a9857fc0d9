//! The calls with a free map: by the rules, by the library and by its inner calls.

use crate::library::answered;
use crate::Answered;
use mukthiban_ffi::tested::{mukthiban_tested_map_build, mukthiban_tested_map_create, mukthiban_tested_map_delete, mukthiban_tested_map_resize};
use mukthiban_ffi::{mukthiban_map_build, mukthiban_map_count, mukthiban_map_create, mukthiban_map_delete, mukthiban_map_resize};
use rules::fault::fault;
use rules::map::{self, Lent};

/// What is lent to a call with a map.
#[derive(Clone, PartialEq, Eq, Debug)]
pub struct Mapped {
    pub table: Vec<u8>,
    pub data: Vec<u8>,
    pub block_len: usize,
    pub work: Vec<u32>,
    pub map: Vec<u32>,
}

#[derive(Clone, PartialEq, Eq, Debug)]
pub enum MapCall {
    Build,
    Create { count: usize },
    Resize { first: usize, count: usize },
    Delete { first: usize },
}

impl Mapped {
    fn lent(&mut self) -> Lent<'_> {
        let Mapped { table, data, block_len, work, map } = self;
        Lent { table, data, block_len: *block_len, work, map }
    }

    /// What the rules answer, which change what is lent. A map that differs is blamed on no entry.
    pub fn stated(&mut self, call: &MapCall) -> Answered {
        let outcome = match *call {
            MapCall::Build => map::build(&self.table, &self.data, self.block_len, &mut self.work, &mut self.map).map(|()| 0),
            MapCall::Create { count } => map::create(self.lent(), count),
            MapCall::Resize { first, count } => map::resize(self.lent(), first, count).map(|()| 0),
            MapCall::Delete { first } => map::delete(self.lent(), first).map(|()| 0),
        };
        match outcome {
            Ok(first) => Answered::with(0, &[first as u64]),
            Err(refusal) => {
                let number = refusal.number();
                let found = (number == 4).then(|| fault(&self.table)).flatten();
                found.map_or(Answered::number(number), |f| Answered::number(number).at(f.entry, f.rule))
            }
        }
    }

    /// What the library answers, which changes what is lent.
    pub fn library(&mut self, call: &MapCall) -> Answered {
        let Mapped { table, data, block_len, work, map } = self;
        let (t, tn, d, dn, l) = (table.as_mut_ptr(), table.len(), data.as_ptr(), data.len(), *block_len);
        let (w, wn, m, mn) = (work.as_mut_ptr(), work.len(), map.as_mut_ptr(), map.len());
        // SAFETY: here and below, pointers and lengths are those of vectors, which do not overlap.
        unsafe {
            match *call {
                MapCall::Build => answered(mukthiban_map_build(t, tn, d, dn, l, w, wn, m, mn)),
                MapCall::Create { count } => {
                    let a = mukthiban_map_create(t, tn, d, dn, l, w, wn, m, mn, count);
                    Answered::with(a.answer, &[a.first_block as u64]).at(a.entry, a.rule)
                }
                MapCall::Resize { first, count } => answered(mukthiban_map_resize(t, tn, d, dn, l, w, wn, m, mn, first, count)),
                MapCall::Delete { first } => answered(mukthiban_map_delete(t, tn, d, dn, l, w, wn, m, mn, first)),
            }
        }
    }

    /// The same by the inner call, to be used only on a sound table with its map; the work list is cleared as the public call clears it.
    pub fn inner(&mut self, call: &MapCall) -> Answered {
        let Mapped { table, block_len, work, map, .. } = self;
        let n = table.len() / 8 - 1;
        work[..n].fill(0);
        let (t, tn, l, m, mn) = (table.as_mut_ptr(), table.len(), *block_len, map.as_mut_ptr(), n.div_ceil(32));
        unsafe {
            match *call {
                MapCall::Build => answered(mukthiban_tested_map_build(t, tn, n, m, mn)),
                MapCall::Create { count } => {
                    let a = mukthiban_tested_map_create(t, tn, n, l, m, mn, count);
                    Answered::with(a.answer, &[a.first_block as u64]).at(a.entry, a.rule)
                }
                MapCall::Resize { first, count } => answered(mukthiban_tested_map_resize(t, tn, n, l, m, mn, first, count)),
                MapCall::Delete { first } => answered(mukthiban_tested_map_delete(t, tn, n, l, m, mn, first)),
            }
        }
    }
}

/// A stretch query, by the rules.
pub fn count_stated(words: &[u32], n: usize, a: usize, b: usize) -> Answered {
    match map::count(words, n, a, b) {
        Ok(free) => Answered::with(0, &[free as u64]),
        Err(refusal) => Answered::number(refusal.number()),
    }
}

/// The same by the library.
pub fn count_library(words: &[u32], n: usize, a: usize, b: usize) -> Answered {
    let r = unsafe { mukthiban_map_count(words.as_ptr(), words.len(), n, a, b) };
    Answered::with(r.answer, &[r.free as u64])
}
