//! Plans that make a file whole. A plan is a list of moves, two places each: a source block, then a target block.

use crate::answer::Answer::*;
use crate::answer::{refuse, Outcome};
use crate::blocks::{file, gate, in_use, Volume};
use crate::layout::{block_count, blocks, join, lay, lay_free, listed, Chain, Run};

/// Whether each of n blocks is free.
fn free_blocks(free: &[Run], n: usize) -> Vec<bool> {
    let mut is_free = vec![false; n];
    for block in listed(free) {
        is_free[block] = true;
    }
    is_free
}

/// "Its sources are the file's blocks in file order, one move a block, and its targets are consecutive, rising and all free."
fn accepted(plan: &[u32], chain: &[Run], free: &[bool]) -> bool {
    let sources = listed(chain);
    if plan.len() != 2 * sources.len() {
        return false;
    }
    let first = plan[1] as usize;
    let moves = plan.chunks(2).zip(&sources).enumerate();
    moves.into_iter().all(|(i, (two, source))| {
        let target = first + i;
        two[0] as usize == *source && two[1] as usize == target && free.get(target) == Some(&true)
    })
}

/// "With the targets cut out in place": of each run the part before them, then the part behind them.
pub(crate) fn carved(chain: &[Run], first: usize, count: usize) -> Chain {
    let parts = |run: &Run| {
        let (start, end) = (run.start, run.start + run.size);
        let before = (start, end.min(first.max(start)));
        let behind = (start.max((first + count).min(end)), end);
        [before, behind].into_iter().filter(|(from, to)| from < to).map(|(from, to)| Run { start: from, size: to - from }).collect::<Chain>()
    };
    chain.iter().flat_map(parts).collect()
}

/// The lowest block from which so many are free in a row.
fn lowest(free: &[bool], count: usize) -> Option<usize> {
    let mut row = 0;
    free.iter().enumerate().find_map(|(block, is_free)| {
        row = if *is_free { row + 1 } else { 0 };
        (row >= count).then(|| block + 1 - count)
    })
}

/// Check answers whether the plan is accepted.
pub fn check(table: &[u8], data: &[u8], block_len: usize, work: &mut [u32], first_block: usize, plan: &[u32]) -> Outcome<()> {
    let held = gate(table, Some(Volume { data_len: data.len(), block_len }), work)?;
    let chain = file(&held, first_block)?;
    refuse(!accepted(plan, chain, &free_blocks(&held.free, block_count(table))), InvalidValue)
}

/// Apply copies the bytes, makes the targets the file's one node and puts its old nodes before the free front: its new first block.
pub fn apply(
    table: &mut [u8],
    data: &mut [u8],
    block_len: usize,
    work: &mut [u32],
    first_block: usize,
    plan: &[u32],
) -> Outcome<usize> {
    let held = gate(table, Some(Volume { data_len: data.len(), block_len }), work)?;
    in_use(block_len)?;
    let chain = file(&held, first_block)?;
    refuse(!accepted(plan, chain, &free_blocks(&held.free, block_count(table))), InvalidValue)?;
    let (first, count) = (plan[1] as usize, blocks(chain));
    for (i, source) in listed(chain).into_iter().enumerate() {
        data.copy_within(source * block_len..(source + 1) * block_len, (first + i) * block_len);
    }
    lay(table, &[Run { start: first, size: count }]);
    lay_free(table, &join(chain, &carved(&held.free, first, count)));
    Ok(first)
}

/// Find writes the plan to the lowest targets, and answers its moves.
pub fn find(
    table: &[u8],
    data: &[u8],
    block_len: usize,
    work: &mut [u32],
    first_block: usize,
    list: &mut [u32],
) -> Outcome<usize> {
    let held = gate(table, Some(Volume { data_len: data.len(), block_len }), work)?;
    let sources = listed(file(&held, first_block)?);
    let first = lowest(&free_blocks(&held.free, block_count(table)), sources.len()).ok_or(NoSpace)?;
    refuse(list.len() < 2 * sources.len(), ListTooShort)?;
    for (i, source) in sources.iter().enumerate() {
        list[2 * i] = *source as u32;
        list[2 * i + 1] = (first + i) as u32;
    }
    Ok(sources.len())
}
