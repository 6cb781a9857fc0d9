//! Entries and nodes of a block table that is known to be sound. A node is named by its index: its first block and 1.

use super::{FLAG, INDEX};

/// The entries of a block table.
#[inline]
pub fn entries(table: &[u8]) -> &[[u8; 8]] {
    table.as_chunks().0
}

/// The first word of an entry: the previous node, or the flag alone where there is none.
#[inline]
pub fn prev(entry: &[u8; 8]) -> u32 {
    u64::from_le_bytes(*entry) as u32
}

/// The second word: the next node, and the flag where the node is longer than a block.
#[inline]
pub fn next(entry: &[u8; 8]) -> u32 {
    (u64::from_le_bytes(*entry) >> 32) as u32
}

#[inline]
fn put(table: &mut [u8], index: u32, u: u32, v: u32) {
    table.as_chunks_mut().0[index as usize] = (u as u64 | (v as u64) << 32).to_le_bytes();
}

/// The blocks of the node at an index, whose second word is `v`.
#[inline]
pub fn size(entries: &[[u8; 8]], index: u32, v: u32) -> u32 {
    if v & FLAG == 0 {
        return 1;
    }
    next(&entries[index as usize + 1]) - index + 1
}

/// Index, size and next of the node at an index.
#[inline]
pub fn node(table: &[u8], index: u32) -> (u32, u32) {
    let entries = entries(table);
    let v = next(&entries[index as usize]);
    (size(entries, index, v), v & INDEX)
}

pub fn head(table: &[u8]) -> u32 {
    next(&entries(table)[0])
}

pub fn set_head(table: &mut [u8], index: u32) {
    put(table, 0, 0, index);
}

pub fn set_prev(table: &mut [u8], index: u32, prev: u32) {
    let v = next(&entries(table)[index as usize]);
    put(table, index, if prev == 0 { FLAG } else { prev }, v);
}

pub fn set_next(table: &mut [u8], index: u32, to: u32) {
    let entry = entries(table)[index as usize];
    put(table, index, prev(&entry), next(&entry) & FLAG | to);
}

/// Writes a whole node.
pub fn set_node(table: &mut [u8], index: u32, size: u32, prev: u32, next: u32) {
    put(table, index, if prev == 0 { FLAG } else { prev }, if size == 1 { next } else { next | FLAG });
    if size > 1 {
        let last = index + size - 1;
        put(table, index + 1, index | FLAG, last);
        put(table, last, index | FLAG, last);
    }
}
