//! Salvage: by the rules and by the library.

use crate::Answered;
use mukthiban_ffi::{mukthiban_salvage_chain, mukthiban_salvage_chains, mukthiban_salvage_dirs, mukthiban_salvage_files, mukthiban_salvage_shared, mukthiban_salvage_way};
use rules::salvage::{chain, chains, entries, shared, way};

/// Which call.
#[derive(Clone, PartialEq, Eq, Debug)]
pub enum Asked {
    Chain(usize),
    Shared(Vec<u32>),
    /// Some first blocks, and the list of ends.
    Chains(Vec<u32>, Vec<usize>),
    Dirs,
    Files,
    Way(u32),
}

/// What is lent: a block table or an entry table, work list and list.
#[derive(Clone, PartialEq, Eq, Debug)]
pub struct Salvage {
    pub asked: Asked,
    pub table: Vec<u8>,
    pub work: Vec<u32>,
    pub list: Vec<u32>,
}

impl Salvage {
    /// What the rules answer, which change what is lent.
    pub fn stated(&mut self) -> Answered {
        let Salvage { asked, table, work, list } = self;
        let outcome = match asked {
            Asked::Chain(first) => chain(table, work, *first, list)
                .map(|(count, ends)| Answered::with(0, &[count as u64]).at(ends.entry, ends.rule)),
            Asked::Shared(firsts) => shared(table, work, firsts, list).map(|()| Answered::number(0)),
            Asked::Chains(firsts, ends) => {
                chains(table, work, firsts, ends, list).map(|count| Answered::with(0, &[count as u64]))
            }
            Asked::Dirs => entries(table, 40, work, list).map(|count| Answered::with(0, &[count as u64])),
            Asked::Files => entries(table, 48, work, list).map(|count| Answered::with(0, &[count as u64])),
            Asked::Way(inode) => way(table, work, *inode, list).map(|count| Answered::with(0, &[count as u64])),
        };
        outcome.unwrap_or_else(|refusal| Answered::number(refusal.number()))
    }

    /// What the library answers, which changes what is lent.
    pub fn library(&mut self) -> Answered {
        let Salvage { asked, table, work, list } = self;
        let (t, tl, w, wl) = (table.as_ptr(), table.len(), work.as_mut_ptr(), work.len());
        let (l, ll) = (list.as_mut_ptr(), list.len());
        // SAFETY: pointers and lengths are those of vectors, which do not overlap.
        unsafe {
            match asked {
                Asked::Chain(first) => {
                    let a = mukthiban_salvage_chain(t, tl, w, wl, *first, l, ll);
                    Answered::with(a.answer, &[a.count as u64]).at(a.entry, a.rule)
                }
                Asked::Shared(firsts) => {
                    Answered::number(mukthiban_salvage_shared(t, tl, w, wl, firsts.as_ptr(), firsts.len(), l, ll).answer)
                }
                Asked::Chains(firsts, ends) => {
                    let (e, el) = (ends.as_mut_ptr(), ends.len());
                    let a = mukthiban_salvage_chains(t, tl, w, wl, firsts.as_ptr(), firsts.len(), e, el, l, ll);
                    Answered::with(a.answer, &[a.count as u64])
                }
                Asked::Dirs => {
                    let a = mukthiban_salvage_dirs(t, tl, w, wl, l, ll);
                    Answered::with(a.answer, &[a.count as u64])
                }
                Asked::Way(inode) => {
                    let a = mukthiban_salvage_way(t, tl, w, wl, *inode, l, ll);
                    Answered::with(a.answer, &[a.count as u64])
                }
                Asked::Files => {
                    let a = mukthiban_salvage_files(t, tl, w, wl, l, ll);
                    Answered::with(a.answer, &[a.count as u64])
                }
            }
        }
    }
}
