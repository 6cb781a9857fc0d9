//! "Audit": where the files' records and the chains of the block table disagree.

use crate::answer::Answer::*;
use crate::answer::{refuse, Outcome};
use crate::blocks::{self, blocks, layout, Layout};
use crate::entries::Kind;
use crate::tree::{self, tree, Four, Tree};
use crate::word;
use std::collections::BTreeMap;

/// What the audit is lent to be read.
#[derive(Clone, Copy)]
pub struct Both<'a> {
    pub table: &'a [u8],
    pub data: &'a [u8],
    pub block_len: usize,
    pub four: Four<'a>,
}

/// "A finding is its kind and a number": an inode, or for kind 4 a first block.
pub type Finding = [u32; 2];

/// A live file of size above 0, as its record has it.
pub(crate) struct File {
    inode: u32,
    block: u32,
    size: u64,
}

/// "The record: 4 spare bytes, the first block (u32, byte 28 of the entry), the size (u64, byte 32)". Those of size 0 name no chain and are left out.
pub(crate) fn files_with_bytes(four: Four, tree: &Tree) -> Vec<File> {
    let width = Kind::File.width();
    let file = |inode: u32| {
        let entry = &four.file_table[inode as usize * width..][..width];
        let size = u64::from(word(entry, 36)) << 32 | u64::from(word(entry, 32));
        File { inode, block: word(entry, 28), size }
    };
    tree.files.inodes().map(file).filter(|file| file.size > 0).collect()
}

/// The whole list: "1 to 3 in the order of inodes, and of one file in the order of kinds; then kind 4 by first block".
pub(crate) fn findings(layout: &Layout, files: &[File], block_len: usize) -> Vec<Finding> {
    let chains: BTreeMap<u32, usize> = layout.files.iter().map(|chain| (chain[0].start as u32, blocks(chain))).collect();
    let mut lowest: BTreeMap<u32, u32> = BTreeMap::new();
    for file in files {
        let inode = lowest.entry(file.block).or_insert(file.inode);
        *inode = file.inode.min(*inode);
    }
    let mut found = vec![];
    for file in files {
        let Some(count) = chains.get(&file.block) else {
            found.push([1, file.inode]);
            continue;
        };
        if lowest[&file.block] < file.inode {
            found.push([2, file.inode]);
        }
        if u128::from(file.size) > *count as u128 * block_len as u128 {
            found.push([3, file.inode]);
        }
    }
    let lost = chains.keys().filter(|first| !lowest.contains_key(first));
    found.extend(lost.map(|first| [4, *first]));
    found
}

/// "1, over everything that is lent; 2, over all sizes".
pub(crate) fn sizes(both: Both) -> Outcome<()> {
    let volume = blocks::Volume { data_len: both.data.len(), block_len: both.block_len };
    let each = [blocks::sizes(both.table, Some(volume)).map(|_| ()), tree::sizes(both.four)];
    refuse(each.contains(&Err(SizeMismatch)), SizeMismatch)?;
    refuse(each.contains(&Err(InvalidValue)), InvalidValue)
}

/// The work list has n places and as many as the two rooms; the block table is judged before the entry tables. The number of findings.
pub fn audit(both: Both, work: &mut [u32], list: &mut [u32]) -> Outcome<usize> {
    sizes(both)?;
    let rooms = both.four.view(Kind::Dir).room() + both.four.view(Kind::File).room();
    let named = both.table.len() / 8 - 1 + rooms;
    refuse(work.len() < named, WorkTooShort)?;
    work[..named].fill(0);
    let layout = layout(both.table).ok_or(BrokenFat)?;
    let tree = tree(both.four).ok_or(BrokenTree)?;
    let found = findings(&layout, &files_with_bytes(both.four, &tree), both.block_len);
    refuse(list.len() < 2 * found.len(), ListTooShort)?;
    list[..2 * found.len()].copy_from_slice(found.as_flattened());
    Ok(found.len())
}
