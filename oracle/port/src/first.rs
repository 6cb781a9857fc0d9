//! The inner calls beside both maps: built before the call, and afterwards held against the rules and against maps built afresh.

use crate::library::{answered, created, opened};
use crate::{Answered, BlockCall, Blocks};
use mukthiban_ffi::tested::*;
use rules::blocks::layout;
use rules::map::map_of;

/// To be used only where the rules find the sizes right and the table sound.
pub struct First;

/// The free map and the map of first blocks, as the library builds them.
fn built(table: &[u8]) -> (Vec<u32>, Vec<u32>) {
    let n = table.len() / 8 - 1;
    let (mut map, mut firsts) = (vec![0x5A5A_5A5A; n.div_ceil(32)], vec![0xA5A5_A5A5; n.div_ceil(32)]);
    // SAFETY: the table is sound, and pointers and lengths are those of vectors.
    unsafe {
        assert_eq!(mukthiban_tested_map_build(table.as_ptr(), table.len(), n, map.as_mut_ptr(), map.len()).answer, 0);
        assert_eq!(mukthiban_tested_first_build(table.as_ptr(), table.len(), n, firsts.as_mut_ptr(), firsts.len()).answer, 0);
    }
    (map, firsts)
}

/// The same by the rules: the blocks of the free chain, and the first block of each file.
fn stated(table: &[u8]) -> (Vec<u32>, Vec<u32>) {
    let n = table.len() / 8 - 1;
    let held = layout(table).expect("a sound table");
    let mut firsts = vec![0; n.div_ceil(32)];
    for chain in &held.files {
        firsts[chain[0].start / 32] |= 1 << (chain[0].start % 32);
    }
    (map_of(n, &held.free), firsts)
}

fn both(maps: &(Vec<u32>, Vec<u32>)) -> (&Vec<u32>, &Vec<u32>) {
    (&maps.0, &maps.1)
}

impl First {
    /// None for format and the test, which have no such call.
    pub fn block_call(&self, call: &BlockCall, lent: &mut Blocks) -> Option<Answered> {
        // Both take tables that are not sound.
        if matches!(call, BlockCall::Format | BlockCall::Test) {
            return None;
        }
        let n = lent.table.len() / 8 - 1;
        let (mut map, mut firsts) = built(&lent.table);
        assert!((&map, &firsts) == both(&stated(&lent.table)), "the maps are not the table's");
        let (t, tn, l) = (lent.table.as_mut_ptr(), lent.table.len(), lent.block_len);
        let (m, mn, f, fn_) = (map.as_mut_ptr(), map.len(), firsts.as_mut_ptr(), firsts.len());
        let (d, dn) = (lent.data.as_mut_ptr(), lent.data.len());
        // SAFETY: the table is sound, the maps are the table's, and pointers and lengths are those of vectors.
        let told = unsafe {
            match *call {
                BlockCall::Format | BlockCall::Test => return None,
                BlockCall::OpenList { first } => {
                    let (list, len) = (lent.list.as_mut_ptr(), lent.list.len());
                    opened(mukthiban_tested_first_open_list(t, tn, n, f, fn_, first, list, len))
                }
                BlockCall::Create { count } => created(mukthiban_tested_first_create(t, tn, n, l, m, mn, f, fn_, count)),
                BlockCall::Resize { first, count } => {
                    answered(mukthiban_tested_first_resize(t, tn, n, l, m, mn, f, fn_, first, count))
                }
                BlockCall::Delete { first } => answered(mukthiban_tested_first_delete(t, tn, n, l, m, mn, f, fn_, first)),
                BlockCall::Read { first, pos } => {
                    let (buf, len) = (lent.buf.as_mut_ptr(), lent.buf.len());
                    answered(mukthiban_tested_first_read(t, tn, n, f, fn_, d, dn, l, first, pos, buf, len))
                }
                BlockCall::Write { first, pos } => {
                    let (buf, len) = (lent.buf.as_ptr(), lent.buf.len());
                    answered(mukthiban_tested_first_write(t, tn, n, f, fn_, d, dn, l, first, pos, buf, len))
                }
            }
        };
        assert!((&map, &firsts) == both(&built(&lent.table)), "after {call:?} the maps are not those built afresh");
        Some(told)
    }
}
