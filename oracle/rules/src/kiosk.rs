//! "The demo kiosk": the profile's rules, and its own create.

use crate::answer::Answer::*;
use crate::answer::{refuse, Outcome};
use crate::audit::{files_with_bytes, findings, sizes, Both};
use crate::blocks::{gate, in_use, Volume};
use crate::entries::{Kind, Name};
use crate::layout::{lay, lay_free, layout, Run};
use crate::plan::carved;
use crate::tree::tree;

/// "One or more of A to Z and 0 to 9, then zeros to the end."
pub fn simple(name: &Name) -> bool {
    let characters = name.iter().take_while(|byte| byte.is_ascii_uppercase() || byte.is_ascii_digit()).count();
    characters > 0 && name[characters..].iter().all(|byte| *byte == 0)
}

/// The test answers 0, or the first rule that is broken.
pub fn test(both: Both, work: &mut [u32]) -> Outcome<u32> {
    sizes(both)?;
    let files = both.four.view(Kind::File);
    let n = both.table.len() / 8 - 1;
    let named = n + both.four.view(Kind::Dir).room() + files.room();
    refuse(work.len() < named, WorkTooShort)?;
    work[..named].fill(0);
    let held = layout(both.table).ok_or(BrokenFat)?;
    let tree = tree(both.four).ok_or(BrokenTree)?;
    let name = |inode: u32| -> Name { files.key(inode)[4..].try_into().unwrap() };
    let kept = [
        findings(&held, &files_with_bytes(both.four, &tree), both.block_len).is_empty(),
        n <= 8191,
        tree.dirs.inodes().all(|inode| inode == 1),
        tree.files.inodes().count() <= 64,
        held.files.iter().all(|chain| chain.len() == 1),
        tree.files.inodes().all(|inode| simple(&name(inode))),
    ];
    Ok(kept.iter().position(|kept| !kept).map_or(0, |rule| rule as u32 + 1))
}

/// Create cuts the left part of the first node along the free chain that has so many blocks: the first block.
pub fn create(table: &mut [u8], data: &[u8], block_len: usize, work: &mut [u32], block_count: usize) -> Outcome<usize> {
    let held = gate(table, Some(Volume { data_len: data.len(), block_len }), work)?;
    in_use(block_len)?;
    refuse(block_count == 0, InvalidValue)?;
    let first = held.free.iter().find(|run| run.size >= block_count).ok_or(NoSpace)?.start;
    lay(table, &[Run { start: first, size: block_count }]);
    lay_free(table, &carved(&held.free, first, block_count));
    Ok(first)
}
