//! The audit of both layers as a careful programmer writes it: behind the two tests each chain's length once, then one pass over the files and one over the
//! blocks, with the findings kept on the heap until they are known to fit.

use super::nodes::{entries, head, next, prev, size};
use super::{FLAG, INDEX};
use port::Audit;

/// What the tests tell: free blocks and files of a sound block table; whether entry tables are sound.
pub type BlockTest = fn(&[u8], &mut [u32]) -> Option<(usize, usize)>;
pub type TreeTest = fn([&[u8]; 4], &mut [u32]) -> bool;

pub(super) fn word(bytes: &[u8], at: usize) -> u32 {
    u32::from_le_bytes(bytes[at..at + 4].try_into().expect("four bytes"))
}

/// The number and the count of findings. The sizes are known to fit; the named places of the work list are 0 afterwards.
pub fn audit(lent: &mut Audit, blocks: BlockTest, tree: TreeTest) -> (u64, u64) {
    let Audit { table, block_len, dir_hash, dir_table, file_hash, file_table, work, list, .. } = lent;
    let (n, rooms) = (table.len() / 8 - 1, dir_table.len() / 40 + file_table.len() / 48);
    let work = &mut work[..n + rooms];
    work.fill(0);
    if blocks(table, work).is_none() {
        return (4, 0);
    }
    if !tree([dir_hash, dir_table, file_hash, file_table], work) {
        return (9, 0);
    }
    let (chains, gone) = work.split_at_mut(n);
    mark_chains(table, chains);
    mark_removed(file_table, gone);
    let mut found = vec![];
    audit_files(file_table, *block_len as u64, chains, gone, &mut found);
    audit_blocks(chains, &mut found);
    chains.fill(0);
    gone.fill(0);
    if list.len() < found.len() {
        return (8, 0);
    }
    list[..found.len()].copy_from_slice(&found);
    (0, found.len() as u64 / 2)
}

/// At each block where a file's chain starts, the chain's length.
pub(super) fn mark_chains(table: &[u8], chains: &mut [u32]) {
    let (entries, head) = (entries(table), head(table));
    let mut index = 1;
    while index as usize <= chains.len() {
        let entry = &entries[index as usize];
        if prev(entry) == FLAG && index != head {
            let (mut at, mut count) = (index, 0);
            while at != 0 {
                let v = next(&entries[at as usize]);
                count += size(entries, at, v);
                at = v & INDEX;
            }
            chains[index as usize - 1] = count;
        }
        index += size(entries, index, next(entry));
    }
}

pub(super) fn mark_removed(file_table: &[u8], gone: &mut [u32]) {
    let mut inode = word(file_table, 44);
    while inode != 0 {
        gone[inode as usize] = 1;
        inode = word(file_table, inode as usize * 48 + 44);
    }
}

/// Kinds 1 to 3, in the order of inodes; a chain that is named gets its flag.
pub(super) fn audit_files(file_table: &[u8], block_len: u64, chains: &mut [u32], gone: &[u32], found: &mut Vec<u32>) {
    let count = word(file_table, 0) as usize;
    let live = file_table.as_chunks::<48>().0.iter().enumerate().take(count).skip(1);
    for (inode, entry) in live.filter(|(inode, _)| gone[*inode] == 0) {
        let size = u64::from_le_bytes(entry[32..40].try_into().expect("eight bytes"));
        if size == 0 {
            continue;
        }
        let Some(mark) = chains.get_mut(word(entry, 28) as usize).filter(|mark| **mark != 0) else {
            found.extend([1, inode as u32]);
            continue;
        };
        if *mark & FLAG != 0 {
            found.extend([2, inode as u32]);
        }
        if u64::from(*mark & INDEX) * block_len < size {
            found.extend([3, inode as u32]);
        }
        *mark |= FLAG;
    }
}

/// Kind 4, by first block.
pub(super) fn audit_blocks(chains: &[u32], found: &mut Vec<u32>) {
    for (first, mark) in chains.iter().enumerate() {
        if *mark != 0 && mark & FLAG == 0 {
            found.extend([4, first as u32]);
        }
    }
}
