//! "Where it is broken": the first of the seven rules that does not hold, and the entry that it blames.

use crate::word;
use std::collections::BTreeMap;

/// An entry of the block table, and the rule that it breaks, 1 to 7.
#[derive(Clone, Copy, PartialEq, Eq, Debug)]
pub struct Fault {
    pub entry: usize,
    pub rule: u32,
}

const FLAG: u32 = 0x8000_0000;

/// Both words of an entry.
fn words(table: &[u8], entry: usize) -> (u32, u32) {
    (word(table, 8 * entry), word(table, 8 * entry + 4))
}

/// The index of a word.
fn index(word: u32) -> usize {
    (word & !FLAG) as usize
}

/// A node that could be read: its size, and the indexes of its previous and its next.
pub(crate) struct Node {
    pub size: usize,
    pub prev: usize,
    pub next: usize,
}

/// Reads the node at block b, or says the first of rules 1 to 5 that is broken there.
pub(crate) fn read(table: &[u8], n: usize, b: usize) -> Result<Node, Fault> {
    let broken = |entry, rule| Err(Fault { entry, rule });
    let (u, v) = words(table, b + 1);
    if (u & FLAG == 0) == (index(u) == 0) {
        return broken(b + 1, 1);
    }
    let node = |size| Ok(Node { size, prev: index(u), next: index(v) });
    if v & FLAG == 0 {
        return node(1);
    }
    if b + 2 > n {
        return broken(b + 1, 2);
    }
    let second = words(table, b + 2);
    let end = index(second.1);
    if second.0 != FLAG | (b as u32 + 1) || second.1 & FLAG != 0 || end < b + 2 {
        return broken(b + 2, 3);
    }
    if end > n {
        return broken(b + 2, 4);
    }
    if words(table, end) != second {
        return broken(end, 5);
    }
    node(end - b)
}

/// The nodes from which one comes back to them by next: what is left when nodes that no other names are taken away, again and again.
fn in_rings(nodes: &BTreeMap<usize, Node>) -> Vec<usize> {
    let named = |node: &Node| node.next.checked_sub(1).filter(|j| nodes.contains_key(j));
    let mut namers: BTreeMap<usize, usize> = nodes.keys().map(|b| (*b, 0)).collect();
    for j in nodes.values().filter_map(named) {
        *namers.get_mut(&j).unwrap() += 1;
    }
    let mut bare: Vec<usize> = namers.iter().filter(|(_, many)| **many == 0).map(|(b, _)| *b).collect();
    while let Some(b) = bare.pop() {
        namers.remove(&b);
        if let Some(j) = named(&nodes[&b]) {
            let many = namers.get_mut(&j).unwrap();
            *many -= 1;
            if *many == 0 {
                bare.push(j);
            }
        }
    }
    namers.into_keys().collect()
}

/// Where a table of one block or more is broken; nowhere, if it is sound.
pub fn fault(table: &[u8]) -> Option<Fault> {
    let n = table.len() / 8 - 1;
    let mut nodes = BTreeMap::new();
    let mut b = 0;
    while b < n {
        match read(table, n, b) {
            Err(found) => return Some(found),
            Ok(node) => {
                let size = node.size;
                nodes.insert(b, node);
                b += size;
            }
        }
    }
    let at = |i: usize| i.checked_sub(1).and_then(|block| nodes.get(&block));
    let (u, v) = words(table, 0);
    let first = v & FLAG == 0 && (v == 0 || at(v as usize).is_some_and(|node| node.prev == 0));
    if u != 0 || !first {
        return Some(Fault { entry: 0, rule: 6 });
    }
    let rings = in_rings(&nodes);
    let untied = |b: usize, node: &Node| {
        let forth = node.next == 0 || at(node.next).is_some_and(|other| other.prev == b + 1);
        let back = node.prev == 0 || at(node.prev).is_some_and(|other| other.next == b + 1);
        !forth || !back || rings.binary_search(&b).is_ok()
    };
    let lowest = nodes.iter().find(|(b, node)| untied(**b, node))?;
    Some(Fault { entry: lowest.0 + 1, rule: 7 })
}
