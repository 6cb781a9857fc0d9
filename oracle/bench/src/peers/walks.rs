//! The block table's test written for speed: several walks at once. Nodes are found in one pass and kept as bits, so that only the table itself is read in any
//! order. Chains are walked from their first nodes and from every thousandth node besides, a dozen walks in turn, so that the memory serves them at once; where
//! a walk meets another's beginning it ends, and the parts are put together in the end.

use super::nodes::{entries, next, prev, size};
use super::{FLAG, INDEX};

/// How many walks take turns.
const SLOTS: usize = 12;
/// Every so many nodes, a power of 2, one more walk begins.
const EVERY: usize = 1_024;

/// What the test answers, and whether a file begins at the block that was asked about.
pub struct Tested {
    pub free: u32,
    pub files: u32,
    pub is_file: bool,
}

/// Free blocks and files of a sound table.
pub fn blocks(table: &[u8], work: &mut [u32]) -> Option<(usize, usize)> {
    tested(table, work, usize::MAX).map(|t| (t.free as usize, t.files as usize))
}

/// The same with a walk more at every other node, so that small tables try it.
pub fn blocks_by_twos(table: &[u8], work: &mut [u32]) -> Option<(usize, usize)> {
    tested_every(table, work, usize::MAX, 2).map(|t| (t.free as usize, t.files as usize))
}

/// The test, and whether a file begins at block `first`. The work list is 0 afterwards.
pub fn tested(table: &[u8], work: &mut [u32], first: usize) -> Option<Tested> {
    tested_every(table, work, first, EVERY)
}

fn tested_every(table: &[u8], work: &mut [u32], first: usize, every: usize) -> Option<Tested> {
    let n = table.len() / 8 - 1;
    let answer = match n {
        1 => judged(table, n, &mut [0; 3], first, every),
        _ => judged(table, n, &mut work[..n], first, every),
    };
    work[..n].fill(0);
    answer
}

#[inline]
fn bit(bits: &[u32], at: usize) -> bool {
    bits[at / 32] >> (at % 32) & 1 == 1
}

/// The first nodes of chains: as many as fit in the rest of the work list, then on the heap.
struct Firsts<'a> {
    room: &'a mut [u32],
    count: usize,
    more: Vec<u32>,
}

impl Firsts<'_> {
    #[inline]
    fn push(&mut self, index: u32) {
        match self.room.get_mut(self.count) {
            Some(place) => *place = index,
            None => self.more.push(index),
        }
        self.count += 1;
    }
    fn get(&self, at: usize) -> u32 {
        self.room.get(at).copied().unwrap_or_else(|| self.more[at - self.room.len()])
    }
}

/// What the first pass finds: the bits of nodes and of those where a walk begins besides, and these in rising order.
struct Found<'a> {
    nodes: usize,
    starts: &'a [u32],
    splits: &'a [u32],
    firsts: Firsts<'a>,
    besides: Vec<u32>,
}

fn found<'a>(entries: &[[u8; 8]], n: usize, work: &'a mut [u32], every: usize) -> Option<Found<'a>> {
    let words = n.div_ceil(32);
    let (bits, room) = work.split_at_mut(2 * words);
    bits.fill(0);
    let (starts, splits) = bits.split_at_mut(words);
    let mut firsts = Firsts { room, count: 0, more: vec![] };
    let (mut nodes, mut besides) = (0, vec![]);
    let mut b = 0;
    while b < n {
        let word = b / 32;
        let (mut held, end) = (0u32, n.min(32 * word + 32));
        while b < end {
            let (u, v) = (prev(&entries[b + 1]), next(&entries[b + 1]));
            held |= 1 << (b % 32);
            nodes += 1;
            if u == FLAG {
                firsts.push(b as u32 + 1);
            } else if u == 0 || u > FLAG {
                return None;
            } else if nodes & (every - 1) == 0 {
                splits[word] |= 1 << (b % 32);
                besides.push(b as u32 + 1);
            }
            b += if v & FLAG == 0 { 1 } else { long(entries, n, b)? };
        }
        starts[word] = held;
    }
    Some(Found { nodes, starts, splits, firsts, besides })
}

/// The size of a node of two blocks and more.
#[inline]
pub fn long(entries: &[[u8; 8]], n: usize, b: usize) -> Option<usize> {
    let second = entries.get(b + 2)?;
    let last = next(second) as usize;
    if prev(second) != (b as u32 + 1) | FLAG || last < b + 2 || last > n || entries[last] != *second {
        return None;
    }
    Some(last - b)
}

#[derive(Clone, Copy, Default)]
struct Walk {
    /// Where it began, where it is, and the second word there.
    source: u32,
    at: u32,
    v: u32,
    blocks: u32,
}

/// Where a walk that ended came to: another's beginning, or 0.
#[derive(Clone, Copy, Default)]
struct Part {
    blocks: u32,
    to: u32,
}

/// What a walk's next step is.
enum Step {
    On,
    Ended(Part),
    Broken,
}

impl Walk {
    #[inline]
    fn from(entries: &[[u8; 8]], index: u32) -> Walk {
        let v = next(&entries[index as usize]);
        Walk { source: index, at: index, v, blocks: size(entries, index, v) }
    }

    #[inline]
    fn step(&mut self, entries: &[[u8; 8]], found: &Found) -> Step {
        let to = self.v & INDEX;
        if to != 0 {
            let Some(entry) = entries.get(to as usize) else { return Step::Broken };
            if prev(entry) != self.at || !bit(found.starts, to as usize - 1) {
                return Step::Broken;
            }
            if !bit(found.splits, to as usize - 1) {
                (self.at, self.v) = (to, next(entry));
                self.blocks += size(entries, to, self.v);
                return Step::On;
            }
        }
        Step::Ended(Part { blocks: self.blocks, to })
    }
}

/// The walks that ended: by the place of their beginning among those besides, or those from a first node that are parts of a chain; and the free blocks.
struct Ended {
    parts: Vec<Part>,
    joined: Vec<(u32, Part)>,
    free: u32,
}

impl Ended {
    fn push(&mut self, found: &Found, head: u32, begin: u32, part: Part) -> Option<()> {
        if bit(found.splits, begin as usize - 1) {
            self.parts[found.besides.binary_search(&begin).ok()?] = part;
        } else if part.to != 0 {
            self.joined.push((begin, part));
        } else if begin == head {
            self.free = part.blocks;
        }
        Some(())
    }

    /// The free blocks, once chains that were walked in parts are put together; none if a part is left, which is in a ring then.
    fn free(self, found: &Found, head: u32) -> Option<u32> {
        let (mut met, mut free) = (0, self.free);
        for (begin, part) in self.joined {
            let (mut blocks, mut to) = (part.blocks, part.to);
            while to != 0 {
                let part = self.parts[found.besides.binary_search(&to).ok()?];
                (blocks, to, met) = (blocks + part.blocks, part.to, met + 1);
            }
            if begin == head {
                free = blocks;
            }
        }
        (met == self.parts.len()).then_some(free)
    }
}

fn judged(table: &[u8], n: usize, work: &mut [u32], first: usize, every: usize) -> Option<Tested> {
    let entries = &entries(table)[..n + 1];
    let (zero, head) = (prev(&entries[0]), next(&entries[0]));
    if zero != 0 || head as usize > n {
        return None;
    }
    let found = found(entries, n, work, every)?;
    // Every chain has a first node.
    if found.firsts.count == 0 {
        return None;
    }
    let begins = |b: usize| b < n && bit(found.starts, b) && prev(&entries[b + 1]) == FLAG;
    if head != 0 && !begins(head as usize - 1) {
        return None;
    }
    let free = walked(entries, &found, head)?;
    let files = found.firsts.count as u32 - (head != 0) as u32;
    Some(Tested { free, files, is_file: begins(first) && head as usize != first + 1 })
}

/// All walks: the blocks of the chain that begins at `head`, if every node was reached and nothing is a ring.
fn walked(entries: &[[u8; 8]], found: &Found, head: u32) -> Option<u32> {
    let firsts = found.firsts.count;
    let sources = firsts + found.besides.len();
    let begun = |at: usize| Walk::from(entries, if at < firsts { found.firsts.get(at) } else { found.besides[at - firsts] });
    let mut ended = Ended { parts: vec![Part::default(); found.besides.len()], joined: vec![], free: 0 };
    let (mut slots, mut busy, mut reached) = ([Walk::default(); SLOTS], sources.min(SLOTS), sources);
    for (at, slot) in slots[..busy].iter_mut().enumerate() {
        *slot = begun(at);
    }
    let mut given = busy;
    while busy > 0 {
        let mut i = 0;
        while i < busy {
            match slots[i].step(entries, found) {
                Step::On => reached += 1,
                Step::Broken => return None,
                Step::Ended(part) => {
                    ended.push(found, head, slots[i].source, part)?;
                    if given == sources {
                        busy -= 1;
                        slots[i] = slots[busy];
                        continue;
                    }
                    slots[i] = begun(given);
                    given += 1;
                }
            }
            i += 1;
        }
    }
    if reached == found.nodes { ended.free(found, head) } else { None }
}
