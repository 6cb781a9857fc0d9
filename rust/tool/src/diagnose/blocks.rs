//! Hints for a block table that is refused: above all, blocks that two chains claim.

use super::{Found, Hints};
use crate::tree::{path_of, read_tree};
use crate::words::count;
use mukthiban::fat::Fault;
use mukthiban::{Kind, Parts, Shape, Volume};
use std::collections::HashMap;

/// A node as its entries say.
struct Node {
    size: usize,
    previous: usize,
    next: usize,
}

fn word(table: &[u8], at: usize) -> u32 {
    u32::from_le_bytes(table[at..at + 4].try_into().expect("4 bytes"))
}

/// The node at a block, or where it can't be read, and by which rule. The first such place along the table is the
/// library's finding; this one goes on behind it.
fn node(table: &[u8], n: usize, b: usize) -> Result<Node, Fault> {
    let (u, v) = (word(table, b * 8 + 8), word(table, b * 8 + 12));
    let (index, flag) = (|w: u32| (w & 0x7FFF_FFFF) as usize, |w: u32| w >> 31 == 1);
    let broken = |entry, rule| Err(Fault { entry, rule });
    let node = |size| Ok(Node { size, previous: index(u), next: index(v) });
    if flag(u) != (index(u) == 0) {
        return broken(b + 1, 1);
    }
    if !flag(v) {
        return node(1);
    }
    if b + 2 > n {
        return broken(b + 1, 2);
    }
    let (eu, ev) = (word(table, b * 8 + 16), word(table, b * 8 + 20));
    let end = index(ev);
    if !flag(eu) || index(eu) != b + 1 || flag(ev) || end < b + 2 {
        return broken(b + 2, 3);
    }
    if end > n {
        return broken(b + 2, 4);
    }
    if (word(table, end * 8), word(table, end * 8 + 4)) != (eu, ev) {
        return broken(end, 5);
    }
    node(end - b)
}

/// The owner of what no chain comes to.
const NOBODY: usize = usize::MAX;

/// What is known of a broken table, and what is said of it.
struct Look<'a> {
    nodes: Vec<Option<Node>>,
    /// For each block the first block of the chain that came to the node there, if one did.
    owner: Vec<Option<usize>>,
    /// Blocks where no node can be read, with the first block of a chain that runs into them.
    into: HashMap<usize, usize>,
    /// The free chain's first block plus 1.
    free: usize,
    /// The files' paths by first block.
    names: HashMap<u32, String>,
    hints: &'a mut Hints,
}

/// Says all that can be said of the block table: what the library finds, then hints.
pub fn look(parts: &Parts, tree_is_sound: bool, found: Fault, hints: &mut Hints) {
    let (n, table) = (parts.blocks(), &parts.fat);
    let names = if tree_is_sound { file_names(parts) } else { HashMap::new() };
    let free = word(table, 4) as usize;
    let (nodes, unread) = read_nodes(table, n);
    // the library's finding stands in its own line
    let others = unread.iter().filter(|(_, fault)| *fault != found);
    hints.lines.extend(others.map(|(_, fault)| format!("entry {}: {}", fault.entry, fault.meaning())));
    let mut look = Look { nodes, owner: vec![None; n], into: HashMap::new(), free, names, hints };
    for first in 0..n {
        if look.node(first).is_some_and(|f| f.previous == 0) {
            look.follow(first);
        }
    }
    look.loose(n);
    if found.entry != 0 && (word(table, 0) != 0 || free > 0 && look.begins(free).is_none()) {
        look.hints.lines.push(format!("entry 0: {}", Fault { entry: 0, rule: 6 }.meaning()));
    }
    let lost = look.names.iter().filter(|(b, _)| look.owner.get(**b as usize).copied().flatten() != Some(**b as usize));
    look.hints.touched.extend(lost.map(|(_, path)| path.clone()));
    let block = unread.iter().find(|(_, fault)| *fault == found).map_or(found.entry.checked_sub(1), |(b, _)| Some(*b));
    let path = block.and_then(|b| look.file(b));
    let bytes = table[found.entry * 8..][..8].try_into().expect("8 bytes");
    look.hints.found = Some(Found { fault: found, bytes, path });
    // what is worst comes first
    look.hints.lines.sort_by_key(|line| !line.contains(" claim"));
}

/// The nodes from block 0 on, and the blocks where one should stand and can't be read. Behind such a block it goes on
/// where a node begins whose neighbours name it back.
fn read_nodes(table: &[u8], n: usize) -> (Vec<Option<Node>>, Vec<(usize, Fault)>) {
    let mut nodes: Vec<Option<Node>> = (0..n).map(|_| None).collect();
    let mut unread = Vec::new();
    let names = |i: usize, link: fn(&Node) -> usize, b: usize| {
        i == 0 || i <= n && node(table, n, i - 1).is_ok_and(|other| link(&other) == b + 1)
    };
    let sure = |b: usize| {
        node(table, n, b).is_ok_and(|this| {
            names(this.previous, |other| other.next, b) && names(this.next, |other| other.previous, b)
        })
    };
    let mut b = 0;
    while b < n {
        match node(table, n, b) {
            Ok(found) => {
                let size = found.size;
                nodes[b] = Some(found);
                b += size;
            }
            Err(fault) => {
                unread.push((b, fault));
                b = (b + 1..n).find(|&b| sure(b)).unwrap_or(n);
            }
        }
    }
    (nodes, unread)
}

impl Look<'_> {
    /// The node at a block, if one was read there.
    fn node(&self, b: usize) -> Option<&Node> {
        self.nodes.get(b).and_then(Option::as_ref)
    }

    /// The chain's first node that an index names.
    fn begins(&self, i: usize) -> Option<&Node> {
        self.node(i - 1).filter(|f| f.previous == 0)
    }

    /// The file whose blocks a block is one of, as far as a chain comes to it.
    fn file(&self, b: usize) -> Option<String> {
        let came = || self.owner.get(b).copied().flatten().or_else(|| self.into.get(&b).copied());
        self.names.get(&(b as u32)).or_else(|| self.names.get(&(came()? as u32))).cloned()
    }

    fn chain(&mut self, first: usize) -> String {
        match (self.free == first + 1, self.names.get(&(first as u32))) {
            (true, _) => "the free blocks".into(),
            (_, Some(path)) => {
                self.hints.touched.push(path.clone());
                path.clone()
            }
            _ => format!("the chain from block {first}"),
        }
    }

    /// Follows a chain from its first node, and notes who came to a node first.
    fn follow(&mut self, first: usize) {
        let (mut at, mut before): (usize, Option<usize>) = (first, None);
        loop {
            let Some((previous, next)) = self.node(at).map(|f| (f.previous, f.next)) else {
                self.into.insert(at, first);
                let line = format!("{} runs into block {at}, where no node can be read", self.chain(first));
                return self.hints.lines.push(line);
            };
            if let Some(other) = self.owner[at].replace(first) {
                let (a, b) = (self.chain(other), self.chain(first));
                return self.hints.lines.push(match (other == first, self.is_free(other) || self.is_free(first)) {
                    (true, _) => format!("{a} comes back to block {at}: a ring"),
                    (_, true) => format!("block {at} is claimed twice: by {a} and by {b}"),
                    _ => format!("two files claim block {at}: {a} and {b}"),
                });
            }
            if let Some(before) = before.filter(|b| previous != b + 1) {
                let chain = self.chain(first);
                let line = format!("{chain}: block {at} follows block {before}, but does not name it back");
                self.hints.lines.push(line);
            }
            match next {
                0 => return,
                next => (before, at) = (Some(at), next - 1),
            }
        }
    }

    fn is_free(&self, first: usize) -> bool {
        self.free == first + 1
    }

    /// Nodes that no chain comes to: first those that hang on something else, then rings.
    fn loose(&mut self, n: usize) {
        for rings in [false, true] {
            for b in 0..n {
                let Some(this) = self.node(b) else { continue };
                let held = this.previous.checked_sub(1).and_then(|p| self.node(p).filter(|f| f.next == b + 1));
                if self.owner[b].is_none() && (rings || held.is_none()) {
                    let blocks = count(self.mark(b) as u64, "block");
                    self.hints.lines.push(match rings {
                        true => format!("a ring of {blocks} goes through block {b}"),
                        false => format!("{blocks} from block {b} on hang on no chain's beginning"),
                    });
                }
            }
        }
    }

    /// Marks what follows a node and was not come to yet; answers its blocks.
    fn mark(&mut self, from: usize) -> usize {
        let (mut at, mut blocks) = (from, 0);
        while let Some((size, next)) = self.node(at).filter(|_| self.owner[at].is_none()).map(|f| (f.size, f.next)) {
            self.owner[at] = Some(NOBODY);
            blocks += size;
            match next {
                0 => break,
                next => at = next - 1,
            }
        }
        blocks
    }
}

/// The files' paths by first block. The entry tables are sound.
fn file_names(parts: &Parts) -> HashMap<u32, String> {
    let mut names = HashMap::new();
    // beside an empty block table they make a volume
    let shape = Shape { blocks: 1, block_len: 512, dir_max: 2, file_max: 1, buckets: 1 };
    let Ok(empty) = Volume::new(shape) else { return names };
    let empty = empty.into_parts();
    let tables = parts.tables();
    let alone = Parts {
        dir_hash: tables.dir_hash.to_vec(),
        dir_table: tables.dir_table.to_vec(),
        file_hash: tables.file_hash.to_vec(),
        file_table: tables.file_table.to_vec(),
        ..empty
    };
    let Ok(volume) = Volume::open(alone) else { return names };
    let Ok(entries) = read_tree(&volume) else { return names };
    for at in (0..entries.len()).filter(|&e| entries[e].kind == Kind::File && entries[e].record.size > 0) {
        names.entry(entries[at].record.first_block).or_insert_with(|| path_of(&entries, at));
    }
    names
}
