//! The kiosk's test as a careful programmer writes it: behind the two tests the audit's passes, and then the profile's other rules, the cheap ones first
//! looked at when their turn comes.

use super::audit::{audit_blocks, audit_files, mark_chains, mark_removed, word, BlockTest, TreeTest};
use super::nodes::{entries, head, next, prev, size};
use super::{FLAG, INDEX};
use port::Kiosk;

/// The number and the first rule that is broken. The sizes are known to fit; the named places of the work list are 0 afterwards.
pub fn test(lent: &mut Kiosk, blocks: BlockTest, tree: TreeTest) -> (u64, u64) {
    let Kiosk { table, block_len, dir_hash, dir_table, file_hash, file_table, work, .. } = lent;
    let (n, rooms) = (table.len() / 8 - 1, dir_table.len() / 40 + file_table.len() / 48);
    let work = &mut work[..n + rooms];
    work.fill(0);
    if blocks(table, work).is_none() {
        return (4, 0);
    }
    if !tree([dir_hash, dir_table, file_hash, file_table], work) {
        return (9, 0);
    }
    let (chains, gone) = work.split_at_mut(n);
    mark_chains(table, chains);
    mark_removed(file_table, gone);
    let mut found = vec![];
    audit_files(file_table, *block_len as u64, chains, gone, &mut found);
    audit_blocks(chains, &mut found);
    let rule = if found.is_empty() { broken(table, n, dir_table, file_table, gone) } else { 1 };
    work.fill(0);
    (0, rule)
}

/// The first of rules 2 to 6 that is broken, 0 where none is.
fn broken(table: &[u8], n: usize, dir_table: &[u8], file_table: &[u8], gone: &[u32]) -> u64 {
    let count = word(file_table, 0) as usize;
    let live = || file_table.as_chunks::<48>().0.iter().enumerate().take(count).skip(1).filter(|(inode, _)| gone[*inode] == 0);
    if n > 8191 {
        2
    } else if word(dir_table, 40 + 24) != 0 {
        3
    } else if live().count() > 64 {
        4
    } else if scattered(table, n) {
        5
    } else if live().any(|(_, entry)| !simple(&entry[4..20])) {
        6
    } else {
        0
    }
}

/// Whether a file's chain has a second node.
fn scattered(table: &[u8], n: usize) -> bool {
    let (entries, head) = (entries(table), head(table));
    let mut index = 1;
    while index as usize <= n {
        let (p, v) = (prev(&entries[index as usize]), next(&entries[index as usize]));
        if p == FLAG && index != head && v & INDEX != 0 {
            return true;
        }
        index += size(entries, index, v);
    }
    false
}

fn simple(name: &[u8]) -> bool {
    let used = name.iter().take_while(|byte| byte.is_ascii_uppercase() || byte.is_ascii_digit()).count();
    used > 0 && name[used..].iter().all(|byte| *byte == 0)
}
