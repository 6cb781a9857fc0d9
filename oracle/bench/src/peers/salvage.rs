//! Salvage as a careful programmer writes it: chains with a place marked for each block that was met, and the live entries of one table.

use super::nodes::{entries, next, prev};
use super::{FLAG, INDEX};
use port::{Asked, Salvage};

/// Previous, size and next of the node at block b, or the entry and the rule (RULES 3.6).
#[inline]
fn read(table: &[[u8; 8]], n: usize, b: usize) -> Result<(usize, usize, usize), (usize, usize)> {
    let (u, v) = (prev(&table[b + 1]), next(&table[b + 1]));
    if u == 0 || u > FLAG {
        return Err((b + 1, 1));
    }
    let links = |size| Ok(((u & INDEX) as usize, size, (v & INDEX) as usize));
    if v & FLAG == 0 {
        return links(1);
    }
    if b + 2 > n {
        return Err((b + 1, 2));
    }
    let second = table[b + 2];
    let end = next(&second) as usize;
    if prev(&second) != FLAG | (b as u32 + 1) || next(&second) & FLAG != 0 || end < b + 2 {
        return Err((b + 2, 3));
    }
    if end > n {
        return Err((b + 2, 4));
    }
    if table[end] != second {
        return Err((end, 5));
    }
    links(end - b)
}

/// Follows the chain from a block, marks what it comes to and hands on each node; the blocks, and entry and rule.
fn follow(table: &[[u8; 8]], work: &mut [u32], first: usize, mark: u32, mut each: impl FnMut(usize, usize)) -> (usize, usize, usize) {
    let n = work.len();
    let (mut count, mut before, mut at) = (0, 0, first + 1);
    while at != 0 {
        let b = at - 1;
        if b >= n {
            return (count, before, 7);
        }
        let (back, size, on) = match read(table, n, b) {
            Ok(node) => node,
            Err((entry, rule)) => return (count, entry, rule),
        };
        if back != before {
            return if before == 0 { (count, b + 1, 8) } else { (count, before, 7) };
        }
        if work[b..b + size].contains(&mark) {
            return (count, before, 7);
        }
        work[b..b + size].fill(mark);
        each(b, size);
        count += size;
        (before, at) = (at, on);
    }
    (count, 0, 0)
}

fn chain(s: &mut Salvage, first: usize) -> [u64; 3] {
    let n = s.table.len() / 8 - 1;
    let table = entries(&s.table);
    s.work[..n].fill(0);
    if first >= n || read(table, n, first).is_err() {
        return [5, 0, 0];
    }
    let (list, mut at) = (&mut s.list, 0);
    let told = follow(table, &mut s.work[..n], first, 1, |b, size| {
        for (place, block) in list[at..at + size].iter_mut().zip(b as u32..) {
            *place = block;
        }
        at += size;
    });
    s.work[..n].fill(0);
    [0, told.0 as u64, told.2 as u64]
}

fn chains(table: &[u8], work: &mut [u32], list: &mut [u32], firsts: &[u32], ends: &mut [usize]) -> [u64; 3] {
    let n = table.len() / 8 - 1;
    let table = entries(table);
    work[..n].fill(0);
    let mut at = 0;
    for ((first, mark), told) in firsts.iter().zip(1..).zip(ends.chunks_exact_mut(3)) {
        if at > 4 * n {
            told.copy_from_slice(&[0, 0, 9]);
            continue;
        }
        let (count, entry, rule) = follow(table, &mut work[..n], *first as usize, mark, |b, size| {
            for (place, block) in list[at..at + size].iter_mut().zip(b as u32..) {
                *place = block;
            }
            at += size;
        });
        told.copy_from_slice(&[count, entry, rule]);
    }
    work[..n].fill(0);
    [0, at as u64, 0]
}

fn shared(table: &[u8], work: &mut [u32], list: &mut [u32], firsts: &[u32]) -> [u64; 3] {
    let n = table.len() / 8 - 1;
    let table = entries(table);
    work[..n].fill(0);
    let (mut spent, mut runs, mut from) = (0, vec![], vec![]);
    for ((first, mark), kind) in firsts.iter().zip(1..).zip(list.iter_mut()) {
        from.push(runs.len());
        if spent > 4 * n {
            *kind = 3;
            continue;
        }
        let (count, _, rule) = follow(table, &mut work[..n], *first as usize, mark, |b, size| runs.push((b, size)));
        spent += count;
        *kind = u32::from(rule != 0);
    }
    from.push(runs.len());
    work[..n].fill(0);
    let of = |i: usize| &runs[from[i]..from[i + 1]];
    for i in (0..firsts.len()).filter(|i| list[*i] == 0) {
        of(i).iter().for_each(|(b, size)| work[*b..b + size].iter_mut().for_each(|times| *times = (*times + 1).min(2)));
    }
    for i in 0..firsts.len() {
        if list[i] == 0 && of(i).iter().any(|(b, size)| work[*b..b + size].contains(&2)) {
            list[i] = 2;
        }
    }
    work[..n].fill(0);
    [0, 0, 0]
}

fn live(s: &mut Salvage, width: usize) -> [u64; 3] {
    let room = s.table.len() / width;
    let word = |at: usize| u32::from_le_bytes(s.table[at..at + 4].try_into().expect("4 bytes"));
    let bound = (word(0) as usize).min(room);
    s.work[..room].fill(0);
    let mut at = word(width - 4) as usize;
    while at != 0 && at < bound && s.work[at] == 0 {
        s.work[at] = 1;
        at = word(at * width + width - 4) as usize;
    }
    let mut count = 0;
    for inode in (1..bound).filter(|inode| s.work[*inode] == 0) {
        s.list[count] = inode as u32;
        count += 1;
    }
    s.work[..room].fill(0);
    [0, count as u64, 0]
}

/// The call, where sizes and lists fit.
pub fn salvage(s: &mut Salvage) -> [u64; 3] {
    match &mut s.asked {
        Asked::Chain(first) => {
            let first = *first;
            chain(s, first)
        }
        Asked::Chains(firsts, ends) => chains(&s.table, &mut s.work, &mut s.list, firsts, ends),
        Asked::Shared(firsts) => shared(&s.table, &mut s.work, &mut s.list, firsts),
        Asked::Dirs => live(s, 40),
        _ => live(s, 48),
    }
}
