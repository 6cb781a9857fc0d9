//! Where a block table is broken (RULES 3.6), as a careful programmer finds it once the test has refused: the walk over the nodes first, then the head, then
//! the lowest node with a link that is not named back or that lies in a ring. Linear: a node that was come to from another is not followed again.

use super::nodes::{next, prev};
use super::{FLAG, INDEX};

/// The mark of a node that lies in a ring.
const ROUND: u32 = u32::MAX;

/// The entry and the rule. The work list is 0 before and after.
pub fn locate(entries: &[[u8; 8]], n: usize, work: &mut [u32]) -> (u64, u64) {
    let found = walked(entries, n, work).or_else(|| linked(entries, n, work));
    work[..n].fill(0);
    found.expect("a table that is refused is broken somewhere")
}

/// Rules 1 to 5 along the walk from block 0; without a fault every node's place is 1.
fn walked(entries: &[[u8; 8]], n: usize, work: &mut [u32]) -> Option<(u64, u64)> {
    let mut b = 0;
    while b < n {
        let (u, v) = (prev(&entries[b + 1]), next(&entries[b + 1]));
        let broken = |entry: usize, rule| Some((entry as u64, rule));
        if u == 0 || u > FLAG {
            return broken(b + 1, 1);
        }
        let mut size = 1;
        if v & FLAG != 0 {
            if b + 2 > n {
                return broken(b + 1, 2);
            }
            let second = &entries[b + 2];
            let end = next(second) as usize;
            if prev(second) != FLAG | (b as u32 + 1) || next(second) & FLAG != 0 || end < b + 2 {
                return broken(b + 2, 3);
            }
            if end > n {
                return broken(b + 2, 4);
            }
            if entries[end] != *second {
                return broken(end, 5);
            }
            size = end - b;
        }
        work[b] = 1;
        b += size;
    }
    None
}

/// Rule 6, then rule 7 at the lowest node.
fn linked(entries: &[[u8; 8]], n: usize, work: &mut [u32]) -> Option<(u64, u64)> {
    let (zero, head) = (prev(&entries[0]), next(&entries[0]));
    let begins = |work: &[u32]| node_at(work, n, head).is_some_and(|j| prev(&entries[j + 1]) & INDEX == 0);
    if zero != 0 || head & FLAG != 0 || (head != 0 && !begins(work)) {
        return Some((0, 6));
    }
    (0..n).find(|b| work[*b] != 0 && (loose(entries, n, work, *b) || rounds(entries, n, work, *b))).map(|b| (b as u64 + 1, 7))
}

/// The block that an index names, if a node starts there.
fn node_at(work: &[u32], n: usize, index: u32) -> Option<usize> {
    let block = (index as usize).checked_sub(1).filter(|block| *block < n)?;
    (work[block] != 0).then_some(block)
}

fn loose(entries: &[[u8; 8]], n: usize, work: &[u32], b: usize) -> bool {
    let (back, on) = (prev(&entries[b + 1]) & INDEX, next(&entries[b + 1]) & INDEX);
    let here = b as u32 + 1;
    let astray = |index: u32, names: fn(&[u8; 8]) -> u32| {
        index != 0 && node_at(work, n, index).is_none_or(|j| names(&entries[j + 1]) & INDEX != here)
    };
    astray(on, prev) || astray(back, next)
}

/// Whether one comes back to b by next. What was come to before is not followed again; the nodes of a ring that b leads to are marked once it closes.
fn rounds(entries: &[[u8; 8]], n: usize, work: &mut [u32], b: usize) -> bool {
    let own = b as u32 + 2;
    let mut at = b;
    while work[at] == 1 {
        work[at] = own;
        match node_at(work, n, next(&entries[at + 1]) & INDEX) {
            Some(next) if next == b => return true,
            Some(next) => at = next,
            None => return false,
        }
    }
    while work[at] == own {
        work[at] = ROUND;
        at = (next(&entries[at + 1]) & INDEX) as usize - 1;
    }
    work[b] == ROUND
}
