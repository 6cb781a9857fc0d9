//! The merge of free neighbours as a careful programmer writes it: marks along the free chain, then one sweep over the nodes, which writes a stretch when the
//! next one is known and takes the marks away again.

use super::nodes::{head, node, set_head, set_node};

/// What a test tells: free blocks and files of a sound table.
pub type Test = fn(&[u8], &mut [u32]) -> Option<(usize, usize)>;

/// The number: 4 where the test does not accept the table. The work list is 0 afterwards.
pub fn merge(table: &mut [u8], work: &mut [u32], test: Test) -> u64 {
    if test(table, work).is_none() {
        return 4;
    }
    let mut index = head(table);
    while index != 0 {
        work[index as usize - 1] = 1;
        index = node(table, index).1;
    }
    sweep(table, work);
    0
}

/// Of a table whose free nodes are marked.
fn sweep(table: &mut [u8], work: &mut [u32]) {
    let n = (table.len() / 8 - 1) as u32;
    // The stretch that is not written yet, by its index and the one behind it, and the one before it; 0 for none.
    let (mut first, mut end, mut before, mut front) = (0, 0, 0, 0);
    let mut index = 1;
    while index <= n {
        let size = node(table, index).0;
        if std::mem::take(&mut work[index as usize - 1]) != 0 {
            if first == 0 {
                (front, first) = (index, index);
            } else if end != index {
                set_node(table, first, end - first, before, index);
                (before, first) = (first, index);
            }
            end = index + size;
        }
        index += size;
    }
    if first != 0 {
        set_node(table, first, end - first, before, 0);
    }
    set_head(table, front);
}
