//! The free map beside the table.

use crate::answer::Answer::*;
use crate::answer::{refuse, Outcome};
use crate::blocks::{self, in_use, sizes, Volume};
use crate::layout::{layout, Chain};

/// "One bit per block, lowest block in the lowest bit, set when the block is in the free chain; unused bits are 0": the words of n's blocks.
pub fn map_of(n: usize, free: &Chain) -> Vec<u32> {
    let mut map = vec![0; n.div_ceil(32)];
    for run in free {
        for block in run.start..run.start + run.size {
            map[block / 32] |= 1 << (block % 32);
        }
    }
    map
}

/// Sizes, work list and map, soundness: the number of blocks, and the map of the table.
fn gate(table: &[u8], volume: Volume, work: &mut [u32], map: &[u32]) -> Outcome<Vec<u32>> {
    let n = sizes(table, Some(volume))?;
    refuse(work.len() < n || map.len() < n.div_ceil(32), WorkTooShort)?;
    work[..n].fill(0);
    let held = layout(table).ok_or(BrokenFat)?;
    Ok(map_of(n, &held.free))
}

/// The words of n's blocks; "words past n's are not touched".
fn draw(map: &mut [u32], words: &[u32]) {
    map[..words.len()].copy_from_slice(words);
}

/// "Building it from a sound table is one call."
pub fn build(table: &[u8], data: &[u8], block_len: usize, work: &mut [u32], map: &mut [u32]) -> Outcome<()> {
    let words = gate(table, Volume { data_len: data.len(), block_len }, work, map)?;
    draw(map, &words);
    Ok(())
}

/// What is lent to a call that changes the table and keeps a map.
pub struct Lent<'a> {
    pub table: &'a mut [u8],
    pub data: &'a [u8],
    pub block_len: usize,
    pub work: &'a mut [u32],
    pub map: &'a mut [u32],
}

/// A map that differs, then the block length; then the call without a map, and the map of the table that it leaves.
fn keeping<T>(lent: Lent, call: impl FnOnce(&mut [u8], &[u8], usize, &mut [u32]) -> Outcome<T>) -> Outcome<T> {
    let Lent { table, data, block_len, work, map } = lent;
    let words = gate(table, Volume { data_len: data.len(), block_len }, work, map)?;
    refuse(map[..words.len()] != words, BrokenFat)?;
    in_use(block_len)?;
    let given = call(table, data, block_len, work)?;
    let held = layout(table).expect("a call leaves a sound table");
    draw(map, &map_of(table.len() / 8 - 1, &held.free));
    Ok(given)
}

pub fn create(lent: Lent, block_count: usize) -> Outcome<usize> {
    keeping(lent, |table, data, block_len, work| blocks::create(table, data, block_len, work, block_count))
}

pub fn resize(lent: Lent, first_block: usize, block_count: usize) -> Outcome<()> {
    keeping(lent, |table, data, block_len, work| blocks::resize(table, data, block_len, work, first_block, block_count))
}

pub fn delete(lent: Lent, first_block: usize) -> Outcome<()> {
    keeping(lent, |table, data, block_len, work| blocks::delete(table, data, block_len, work, first_block))
}

/// "For a stretch of blocks from a up to and without b", bit by bit.
pub fn count(map: &[u32], n: usize, a: usize, b: usize) -> Outcome<usize> {
    refuse(!(1..=blocks::MOST_BLOCKS).contains(&n), InvalidValue)?;
    refuse(map.len() < n.div_ceil(32), WorkTooShort)?;
    refuse(a > b || b > n, InvalidValue)?;
    Ok((a..b).filter(|block| map[block / 32] >> (block % 32) & 1 == 1).count())
}
