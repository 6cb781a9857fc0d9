//! "Block table": entries, nodes, chains, and when a table is sound.

use crate::{put_word, word};

// Entries.

/// Half of an entry: "the low 31 bits are an index, the top bit a flag".
#[derive(Clone, Copy, PartialEq, Eq, Debug)]
struct Half {
    index: usize,
    flag: bool,
}

fn half_of(word: u32) -> Half {
    Half {
        index: (word & 0x7FFF_FFFF) as usize,
        flag: word >> 31 == 1,
    }
}

fn word_of(half: Half) -> u32 {
    half.index as u32 | if half.flag { 0x8000_0000 } else { 0 }
}

fn u(table: &[u8], entry: usize) -> Half {
    half_of(word(table, entry * 8))
}

fn v(table: &[u8], entry: usize) -> Half {
    half_of(word(table, entry * 8 + 4))
}

fn put_entry(table: &mut [u8], entry: usize, u: Half, v: Half) {
    put_word(table, entry * 8, word_of(u));
    put_word(table, entry * 8 + 4, word_of(v));
}

/// "An index is a block number plus 1; 0 means none."
fn index_of(block: Option<usize>) -> usize {
    block.map_or(0, |b| b + 1)
}

fn block_of(index: usize) -> Option<usize> {
    index.checked_sub(1)
}

pub(crate) fn block_count(table: &[u8]) -> usize {
    table.len() / 8 - 1
}

// Nodes and chains.

/// "A node is a run of s blocks from b."
#[derive(Clone, Copy, PartialEq, Eq, Debug)]
pub struct Run {
    pub start: usize,
    pub size: usize,
}

/// A run with the links of its start entry.
#[derive(Clone, Copy, PartialEq, Eq, Debug)]
struct Node {
    run: Run,
    prev: Option<usize>,
    next: Option<usize>,
}

/// "What is reached from one such first node."
pub type Chain = Vec<Run>;

/// What a sound table holds.
#[derive(Clone, PartialEq, Eq, Debug)]
pub struct Layout {
    pub free: Chain,
    /// In the order of their first blocks.
    pub files: Vec<Chain>,
}

/// The node that starts at block b, if the entries there have the form of one that lies within the table.
fn node_at(table: &[u8], b: usize) -> Option<Node> {
    let n = block_count(table);
    let (prev, next) = (u(table, b + 1), v(table, b + 1));
    if prev.flag != (prev.index == 0) {
        return None;
    }
    let size = if next.flag { long_size(table, b, n)? } else { 1 };
    Some(Node {
        run: Run { start: b, size },
        prev: block_of(prev.index),
        next: block_of(next.index),
    })
}

/// "If s is 2 or more, entries b + 2 and b + s both hold u = (b + 1, flag 1), v = (b + s, flag 0)."
fn long_size(table: &[u8], b: usize, n: usize) -> Option<usize> {
    if b + 2 > n {
        return None;
    }
    let end = v(table, b + 2).index;
    if end < b + 2 || end > n {
        return None;
    }
    let back = Half { index: b + 1, flag: true };
    let there = Half { index: end, flag: false };
    let holds = |entry| u(table, entry) == back && v(table, entry) == there;
    (holds(b + 2) && holds(end)).then_some(end - b)
}

/// Writes the one, two or three entries of a node.
pub fn set_node(table: &mut [u8], run: Run, prev: Option<usize>, next: Option<usize>) {
    let b = run.start;
    let from = Half { index: index_of(prev), flag: prev.is_none() };
    let to = Half { index: index_of(next), flag: run.size != 1 };
    put_entry(table, b + 1, from, to);
    if run.size >= 2 {
        let back = Half { index: b + 1, flag: true };
        let there = Half { index: b + run.size, flag: false };
        put_entry(table, b + 2, back, there);
        put_entry(table, b + run.size, back, there);
    }
}

/// "Head: u = 0, v = first free node, flag 0."
pub(crate) fn set_head(table: &mut [u8], free: &[Run]) {
    let none = Half { index: 0, flag: false };
    let first = index_of(free.first().map(|run| run.start));
    put_entry(table, 0, none, Half { index: first, flag: false });
}

/// Writes every node of a chain with its links. A node that does not change gets the bytes that it has.
pub(crate) fn lay(table: &mut [u8], chain: &[Run]) {
    for (i, run) in chain.iter().enumerate() {
        let prev = i.checked_sub(1).map(|p| chain[p].start);
        let next = chain.get(i + 1).map(|r| r.start);
        set_node(table, *run, prev, next);
    }
}

pub(crate) fn lay_free(table: &mut [u8], free: &[Run]) {
    lay(table, free);
    set_head(table, free);
}

/// Writes a whole layout over any bytes: the entries that the rules read, and no other.
pub fn lay_out(table: &mut [u8], layout: &Layout) {
    for chain in &layout.files {
        lay(table, chain);
    }
    lay_free(table, &layout.free);
}

pub fn blocks(chain: &[Run]) -> usize {
    chain.iter().map(|run| run.size).sum()
}

/// The block list of a chain, in chain order.
pub fn listed(chain: &[Run]) -> Vec<usize> {
    let each = |run: &Run| run.start..run.start + run.size;
    chain.iter().flat_map(each).collect()
}

/// "Whole nodes while they fit, then the left part of the next": those, and what is left behind them.
pub(crate) fn cut(chain: &[Run], mut count: usize) -> (Chain, Chain) {
    let (mut taken, mut left) = (vec![], vec![]);
    for run in chain {
        let part = run.size.min(count);
        count -= part;
        if part > 0 {
            taken.push(Run { start: run.start, size: part });
        }
        if part < run.size {
            left.push(Run { start: run.start + part, size: run.size - part });
        }
    }
    (taken, left)
}

pub(crate) fn join(first: &[Run], second: &[Run]) -> Chain {
    [first, second].concat()
}

// Soundness.

/// What the table holds, if it is sound; a table of n blocks with n at least 1.
pub fn layout(table: &[u8]) -> Option<Layout> {
    let nodes = tiles(table)?;
    if !links_agree(&nodes) {
        return None;
    }
    let mut chains = chains(&nodes)?;
    let free = match head(table)? {
        None => vec![],
        Some(first) => {
            let at = chains.iter().position(|chain| chain[0].start == first)?;
            chains.remove(at)
        }
    };
    Some(Layout { free, files: chains })
}

/// "The head has that form": the first free node that it names.
fn head(table: &[u8]) -> Option<Option<usize>> {
    let first = v(table, 0);
    let formed = word(table, 0) == 0 && !first.flag;
    formed.then(|| block_of(first.index))
}

/// "Nodes starting at block 0 cover blocks 0 to n - 1 end to end": the nodes, each at its first block.
fn tiles(table: &[u8]) -> Option<Vec<Option<Node>>> {
    let n = block_count(table);
    let mut nodes = vec![None; n];
    let mut b = 0;
    while b < n {
        let node = node_at(table, b)?;
        nodes[b] = Some(node);
        b += node.run.size;
    }
    (b == n).then_some(nodes)
}

/// "Each next names a node whose previous names it back, and the reverse."
fn links_agree(nodes: &[Option<Node>]) -> bool {
    let at = |block: usize| nodes.get(block).copied().flatten();
    nodes.iter().flatten().all(|node| {
        let here = Some(node.run.start);
        let forth = node.next.is_none_or(|j| at(j).is_some_and(|other| other.prev == here));
        let back = node.prev.is_none_or(|i| at(i).is_some_and(|other| other.next == here));
        forth && back
    })
}

/// "Every node is reached from a node with no previous": the chains, in the order of their first blocks.
fn chains(nodes: &[Option<Node>]) -> Option<Vec<Chain>> {
    let mut chains = vec![];
    let mut reached = 0;
    for first in nodes.iter().flatten().filter(|node| node.prev.is_none()) {
        let mut chain = vec![first.run];
        let mut next = first.next;
        while let Some(block) = next {
            let node = nodes[block]?;
            chain.push(node.run);
            next = node.next;
        }
        reached += chain.len();
        chains.push(chain);
    }
    (reached == nodes.iter().flatten().count()).then_some(chains)
}
