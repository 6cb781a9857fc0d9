//! Whole calls in plain Rust: a test of those that are written for speed, and then one walk along the file's chain. They answer the library's numbers.

use super::files::{cut, give, take};
use super::nodes::{node, set_next, set_prev};
use super::walks::Tested;
use port::{BlockCall, Blocks};

/// Table, work list, and the block that may begin a file.
type Test = fn(&[u8], &mut [u32], usize) -> Option<Tested>;

/// The block that a call names as a file's first.
fn file(call: &BlockCall) -> Option<usize> {
    match *call {
        BlockCall::OpenList { first } | BlockCall::Delete { first } | BlockCall::Resize { first, .. } => Some(first),
        BlockCall::Read { first, .. } | BlockCall::Write { first, .. } => Some(first),
        BlockCall::Create { .. } | BlockCall::Test | BlockCall::Format => None,
    }
}

/// BrokenFat, or NotAFile; or the free blocks.
fn gate(call: &BlockCall, lent: &mut Blocks, test: Test) -> Result<u32, u32> {
    let named = file(call);
    let tested = test(&lent.table, &mut lent.work, named.unwrap_or(usize::MAX)).ok_or(4u32)?;
    if tested.is_file || named.is_none() { Ok(tested.free) } else { Err(5) }
}

/// The blocks in chain order. The list has room for every block, so that nothing is counted before it is written.
fn open_list(lent: &mut Blocks, first: usize) -> Result<u64, u32> {
    let (mut at, mut count) = (first as u32 + 1, 0);
    while at != 0 {
        let (size, next) = node(&lent.table, at);
        for block in at - 1..at - 1 + size {
            lent.list[count] = block;
            count += 1;
        }
        at = next;
    }
    Ok(count as u64)
}

/// Where the bytes from `pos` on lie, part by part, for `each` to move; OutOfBound is known before the first.
fn parts(table: &[u8], block_len: usize, first: usize, pos: usize, len: usize, mut each: impl FnMut(usize, usize, usize)) -> Result<u64, u32> {
    let (mut at, mut from) = (first as u32 + 1, 0);
    let mut whole = vec![];
    let end = pos + len;
    while at != 0 && from < end {
        let (size, next) = node(table, at);
        let to = from + size as usize * block_len;
        if to > pos {
            whole.push((at, from, to));
        }
        (at, from) = (next, to);
    }
    if from < end {
        return Err(7);
    }
    for (at, from, to) in whole {
        let begin = from.max(pos);
        each((at as usize - 1) * block_len + begin - from, begin - pos, to.min(end) - begin);
    }
    Ok(0)
}

fn read(lent: &mut Blocks, first: usize, pos: usize) -> Result<u64, u32> {
    let Blocks { table, data, block_len, buf, .. } = lent;
    parts(table, *block_len, first, pos, buf.len(), |there, here, len| buf[here..here + len].copy_from_slice(&data[there..there + len]))
}

fn write(lent: &mut Blocks, first: usize, pos: usize) -> Result<u64, u32> {
    let Blocks { table, data, block_len, buf, .. } = lent;
    parts(table, *block_len, first, pos, buf.len(), |there, here, len| data[there..there + len].copy_from_slice(&buf[here..here + len]))
}

/// The last node from one on.
fn last(table: &[u8], mut at: u32) -> u32 {
    loop {
        let (_, next) = node(table, at);
        if next == 0 {
            return at;
        }
        at = next;
    }
}

fn create(lent: &mut Blocks, free: u32, count: u32) -> Result<u64, u32> {
    match count {
        0 => Err(2),
        _ if free < count => Err(6),
        _ => Ok(take(&mut lent.table, count)[0].0 as u64 - 1),
    }
}

fn resize(lent: &mut Blocks, free: u32, first: usize, count: u32) -> Result<u64, u32> {
    if count == 0 {
        return Err(2);
    }
    let table = &mut lent.table;
    let (mut at, mut before, mut from) = (first as u32 + 1, 0, 0);
    loop {
        let (size, next) = node(table, at);
        if from + size > count {
            let end = if next == 0 { 0 } else { last(table, next) };
            let right = cut(table, (at, size), before, count - from);
            give(table, right, if end == 0 { right } else { end });
            return Ok(0);
        }
        from += size;
        if next == 0 {
            break;
        }
        (before, at) = (at, next);
    }
    if count > from {
        if free < count - from {
            return Err(6);
        }
        let taken = take(table, count - from)[0].0;
        set_next(table, at, taken);
        set_prev(table, taken, at);
    }
    Ok(0)
}

fn delete(lent: &mut Blocks, first: usize) -> Result<u64, u32> {
    let first = first as u32 + 1;
    let end = last(&lent.table, first);
    give(&mut lent.table, first, end);
    Ok(0)
}

fn done(call: &BlockCall, lent: &mut Blocks, test: Test) -> Result<u64, u32> {
    let free = gate(call, lent, test)?;
    match *call {
        BlockCall::OpenList { first } => open_list(lent, first),
        BlockCall::Create { count } => create(lent, free, count as u32),
        BlockCall::Resize { first, count } => resize(lent, free, first, count as u32),
        BlockCall::Delete { first } => delete(lent, first),
        BlockCall::Read { first, pos } => read(lent, first, pos),
        BlockCall::Write { first, pos } => write(lent, first, pos),
        BlockCall::Test | BlockCall::Format => unreachable!("no peer's call"),
    }
}

/// The number, and what the call answers beside it.
pub fn block_call(call: &BlockCall, lent: &mut Blocks, test: Test) -> (u32, u64) {
    done(call, lent, test).map_or_else(|number| (number, 0), |answer| (0, answer))
}
