//! Open and close of a file in plain Rust over sound tables: the open records in a sorted vector, found by halves.

use super::lookup::{bucket, word, WIDTH};

const WRITER: u32 = 1 << 31;

/// Whether an inode is live: it stands in the bucket of its own key.
#[inline]
fn live(hash: &[u8], table: &[u8], inode: u32) -> bool {
    if inode == 0 || inode >= word(table, 0) {
        return false;
    }
    let at = inode as usize * WIDTH;
    let mut other = bucket(hash, [0, 4, 8, 12, 16].map(|i| word(table, at + i)));
    while other != 0 && other != inode {
        other = word(table, other as usize * WIDTH + WIDTH - 4);
    }
    other == inode
}

/// A reader's open: 10, 17.
#[inline(never)]
pub fn open(hash: &[u8], table: &[u8], records: &mut Vec<(u32, u32)>, inode: u32) -> u32 {
    if !live(hash, table, inode) {
        return 10;
    }
    match records.binary_search_by_key(&inode, |record| record.0) {
        Ok(at) => {
            let record = &mut records[at].1;
            if (*record & !WRITER) + (*record >> 31) >= 65_535 {
                return 17;
            }
            *record += 1;
        }
        Err(at) => records.insert(at, (inode, 1)),
    }
    0
}

/// A reader's close: 10, 16.
#[inline(never)]
pub fn close(hash: &[u8], table: &[u8], records: &mut Vec<(u32, u32)>, inode: u32) -> u32 {
    if !live(hash, table, inode) {
        return 10;
    }
    let Ok(at) = records.binary_search_by_key(&inode, |record| record.0) else { return 16 };
    if records[at].1 & !WRITER == 0 {
        return 16;
    }
    records[at].1 -= 1;
    if records[at].1 == 0 {
        records.remove(at);
    }
    0
}
