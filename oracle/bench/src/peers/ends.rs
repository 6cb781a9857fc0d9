//! The block table's test by the ends of fragments, which is the library's own way, in plain Rust: one pass over the nodes makes each a fragment of one, a second
//! joins every node's fragment to its next one's. No chain is followed, so that no load waits for another. A place of the work list holds the other end of the
//! fragment that ends there in its low 20 bits, and a part of the fragment's blocks above them.

use super::nodes::{entries, next, prev, size};
use super::walks::{self, Tested};
use super::{FLAG, INDEX};

const SPAN: u32 = 1 << 20;
/// Sums below this are whole in either end; others are divided between the two.
const WHOLE: u32 = 2_048;

/// Free blocks and files of a sound table.
pub fn blocks(table: &[u8], work: &mut [u32]) -> Option<(usize, usize)> {
    tested(table, work, usize::MAX).map(|t| (t.free as usize, t.files as usize))
}

/// The test, and whether a file begins at block `first`. The work list is 0 afterwards.
pub fn tested(table: &[u8], work: &mut [u32], first: usize) -> Option<Tested> {
    let n = table.len() / 8 - 1;
    let work = &mut work[..n];
    work.fill(0);
    let answer = judged(&entries(table)[..n + 1], n, work, first);
    work.fill(0);
    answer
}

fn judged(entries: &[[u8; 8]], n: usize, work: &mut [u32], first: usize) -> Option<Tested> {
    let head = next(&entries[0]);
    if prev(&entries[0]) != 0 || head as usize > n {
        return None;
    }
    let (nodes, firsts) = tiled(entries, n, work)?;
    let begins = |b: usize| b < n && work[b] != 0 && prev(&entries[b + 1]) == FLAG;
    let (head_fits, is_file) = (head == 0 || begins(head as usize - 1), begins(first) && head as usize != first + 1);
    if firsts == 0 || !head_fits || linked(entries, n, work)? != nodes - firsts {
        return None;
    }
    let free = match head {
        0 => 0,
        _ => sum(entries, work, head - 1, work[head as usize - 1] % SPAN - 1),
    };
    Some(Tested { free, files: firsts as u32 - (head != 0) as u32, is_file })
}

/// Every node a fragment of one: how many nodes, and how many that begin a chain.
fn tiled(entries: &[[u8; 8]], n: usize, work: &mut [u32]) -> Option<(usize, usize)> {
    let (mut b, mut nodes, mut firsts) = (0, 0, 0);
    while b < n {
        let (u, v) = (prev(&entries[b + 1]), next(&entries[b + 1]));
        if u == 0 || u > FLAG {
            return None;
        }
        let size = if v & FLAG == 0 { 1 } else { walks::long(entries, n, b)? };
        work[b] = b as u32 + 1 + (size as u32).min(WHOLE) * SPAN;
        nodes += 1;
        firsts += (u == FLAG) as usize;
        b += size;
    }
    Some((nodes, firsts))
}

/// Joins every link: how many there are.
fn linked(entries: &[[u8; 8]], n: usize, work: &mut [u32]) -> Option<usize> {
    let (mut b, mut joins) = (0, 0);
    while b < n {
        let v = next(&entries[b + 1]);
        let to = v & INDEX;
        let here = b as u32;
        b += size(entries, here + 1, v) as usize;
        if to == 0 {
            continue;
        }
        let there = to - 1;
        let other = *work.get(there as usize)?;
        if other == 0 || prev(&entries[to as usize]) != here + 1 {
            return None;
        }
        let first = work[here as usize] % SPAN - 1;
        if first == there {
            return None;
        }
        join(entries, work, (first, here), (there, other % SPAN - 1));
        joins += 1;
    }
    Some(joins)
}

/// The fragment from `h` to `b` and the one from `j` to `z` become one.
#[inline]
fn join(entries: &[[u8; 8]], work: &mut [u32], (h, b): (u32, u32), (j, z): (u32, u32)) {
    let (p, q) = (work[b as usize] / SPAN, work[j as usize] / SPAN);
    let (at_first, at_last) = if p + q < WHOLE {
        (p + q, p + q)
    } else if p >= WHOLE && q < WHOLE && p + q < 2 * WHOLE && h != b {
        (work[h as usize] / SPAN, p + q)
    } else {
        let all = sum(entries, work, h, b) + sum(entries, work, j, z);
        (WHOLE + all / WHOLE, WHOLE + all % WHOLE)
    };
    work[h as usize] = z + 1 + at_first * SPAN;
    work[z as usize] = h + 1 + at_last * SPAN;
}

/// The blocks of the fragment from `h` to `z`.
fn sum(entries: &[[u8; 8]], work: &[u32], h: u32, z: u32) -> u32 {
    let q = work[z as usize] / SPAN;
    if q < WHOLE {
        return q;
    }
    if h == z {
        return size(entries, h + 1, next(&entries[h as usize + 1]));
    }
    (work[h as usize] / SPAN - WHOLE) * WHOLE + (q - WHOLE)
}
