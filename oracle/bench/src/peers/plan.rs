//! Plans that make a file whole as a careful programmer writes them, behind one of the tests: marks along the free chain and one sweep over the nodes for
//! the targets, the standard library's copy for the bytes, and one walk along the free chain that writes the nodes that change.

use super::nodes::{head, node, set_head, set_next, set_node, set_prev};
use super::walks::Tested;
use port::Blocks;

/// Table, work list, and the block that may begin a file.
pub type Test = fn(&[u8], &mut [u32], usize) -> Option<Tested>;

/// BrokenFat, or NotAFile.
fn gate(lent: &mut Blocks, first: usize, test: Test) -> Result<(), u32> {
    let tested = test(&lent.table, &mut lent.work, first).ok_or(4u32)?;
    if tested.is_file { Ok(()) } else { Err(5) }
}

/// Puts that mark at each free node's first block.
fn mark(table: &[u8], work: &mut [u32], mark: u32) {
    let mut index = head(table);
    while index != 0 {
        work[index as usize - 1] = mark;
        index = node(table, index).1;
    }
}

/// The stretches of free blocks, rising, each by its first block and the one behind it, until one is taken.
fn stretch(lent: &mut Blocks, take: impl Fn(u32, u32) -> bool) -> Option<u32> {
    let Blocks { table, work, .. } = lent;
    mark(table, work, 1);
    let n = (table.len() / 8 - 1) as u32;
    let (mut at, mut from, mut found) = (0, None, None);
    while at < n && found.is_none() {
        match (work[at as usize] != 0, from) {
            (true, None) => from = Some(at),
            (false, Some(start)) => {
                found = take(start, at).then_some(start);
                from = None;
            }
            _ => {}
        }
        at += node(table, at + 1).0;
    }
    let last = from.filter(|start| found.is_none() && take(*start, n));
    mark(table, work, 0);
    found.or(last)
}

/// The blocks of a chain, each handed on with its place.
fn each(table: &[u8], first: usize, mut block: impl FnMut(usize, u32) -> bool) -> Option<usize> {
    let (mut at, mut count) = (first as u32 + 1, 0);
    while at != 0 {
        let (size, next) = node(table, at);
        for b in at - 1..at - 1 + size {
            if !block(count, b) {
                return None;
            }
            count += 1;
        }
        at = next;
    }
    Some(count)
}

/// The number, and how many moves the plan in the list has.
pub fn find(lent: &mut Blocks, first: usize, test: Test) -> Result<u64, u32> {
    gate(lent, first, test)?;
    let (mut at, mut count) = (first as u32 + 1, 0);
    while at != 0 {
        let (size, next) = node(&lent.table, at);
        (at, count) = (next, count + size);
    }
    let to = stretch(lent, |from, end| end - from >= count).ok_or(6u32)?;
    if lent.list.len() < 2 * count as usize {
        return Err(8);
    }
    let Blocks { table, list, .. } = lent;
    each(table, first, |i, block| {
        (list[2 * i], list[2 * i + 1]) = (block, to + i as u32);
        true
    });
    Ok(count.into())
}

/// The number alone.
pub fn check(lent: &mut Blocks, first: usize, test: Test) -> Result<u64, u32> {
    gate(lent, first, test)?;
    let (plan, to) = (&lent.list, lent.list.get(1).copied().unwrap_or(0));
    let same = |i: usize, block: u32| plan.get(2 * i..2 * i + 2).is_some_and(|two| two[0] == block && u64::from(two[1]) == u64::from(to) + i as u64);
    let count = each(&lent.table, first, same).filter(|count| 2 * count == plan.len()).ok_or(2u32)?;
    let end = u64::from(to) + count as u64;
    stretch(lent, |from, behind| from <= to && to < behind && end <= u64::from(behind)).ok_or(2u32)?;
    Ok(0)
}

/// The free chain without the blocks from the index lo up to hi.
fn carve(table: &mut [u8], lo: u32, hi: u32) {
    let (mut index, mut before, mut front) = (head(table), 0, 0);
    let mut broken = false;
    while index != 0 {
        let (size, next) = node(table, index);
        let end = index + size;
        if end <= lo || hi <= index {
            if broken {
                set_prev(table, index, before);
                if before != 0 {
                    set_next(table, before, index);
                }
            }
            (before, broken) = (index, false);
            front = if front == 0 { index } else { front };
        } else {
            for (from, to) in [(index, lo), (hi, end)] {
                if from < to {
                    set_node(table, from, to - from, before, 0);
                    if before != 0 {
                        set_next(table, before, from);
                    }
                    before = from;
                    front = if front == 0 { from } else { front };
                }
            }
            broken = true;
        }
        index = next;
    }
    if broken && before != 0 {
        set_next(table, before, 0);
    }
    set_head(table, front);
}

/// The number, and the new first block.
pub fn apply(lent: &mut Blocks, first: usize, test: Test) -> Result<u64, u32> {
    check(lent, first, test)?;
    let Blocks { table, data, block_len, list, .. } = lent;
    let (to, count) = (list[1], list.len() / 2);
    for two in list.chunks_exact(2) {
        let from = two[0] as usize * *block_len;
        data.copy_within(from..from + *block_len, two[1] as usize * *block_len);
    }
    carve(table, to + 1, to + 1 + count as u32);
    set_node(table, to + 1, count as u32, 0, 0);
    let (mut last, front) = (first as u32 + 1, head(table));
    loop {
        let next = node(table, last).1;
        if next == 0 {
            break;
        }
        last = next;
    }
    set_next(table, last, front);
    if front != 0 {
        set_prev(table, front, last);
    }
    set_head(table, first as u32 + 1);
    Ok(to.into())
}
