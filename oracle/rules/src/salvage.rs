//! "Salvage": what can still be trusted on tables of any bytes.

use crate::answer::Answer::*;
use crate::answer::{refuse, Outcome};
use crate::fault::{read, Fault};
use crate::word;
use std::collections::{HashMap, HashSet};

/// A chain as far as it can be followed: its blocks, and why there are no more; rule 0 and entry 0 where it is whole.
pub struct Followed {
    pub blocks: Vec<u32>,
    pub ends: Fault,
}

/// "While each node can be read, names back the one before it, and has no block that came before".
fn follow(table: &[u8], n: usize, first: usize) -> Followed {
    let (mut blocks, mut met) = (vec![], HashSet::new());
    let (mut before, mut at) = (0, first + 1);
    let ends = loop {
        let Some(b) = at.checked_sub(1) else { break Fault { entry: 0, rule: 0 } };
        if b >= n {
            break Fault { entry: before, rule: 7 };
        }
        let node = match read(table, n, b) {
            Ok(node) => node,
            Err(fault) => break fault,
        };
        if node.prev != before {
            break if before == 0 { Fault { entry: b + 1, rule: 8 } } else { Fault { entry: before, rule: 7 } };
        }
        if (b..b + node.size).any(|x| met.contains(&x)) {
            break Fault { entry: before, rule: 7 };
        }
        met.extend(b..b + node.size);
        blocks.extend((b..b + node.size).map(|x| x as u32));
        (before, at) = (b + 1, node.next);
    };
    Followed { blocks, ends }
}

/// "1, 2, 3": no soundness. n.
fn sizes(table: &[u8], work: &mut [u32], many: usize) -> Outcome<usize> {
    refuse(table.len() < 8 || !table.len().is_multiple_of(8), SizeMismatch)?;
    let n = table.len() / 8 - 1;
    refuse(!(1..=1_000_000).contains(&n) || many > 1_000_000, InvalidValue)?;
    refuse(work.len() < n, WorkTooShort)?;
    work[..n].fill(0);
    Ok(n)
}

/// The blocks of one chain, and why there are no more.
pub fn chain(table: &[u8], work: &mut [u32], first: usize, list: &mut [u32]) -> Outcome<(usize, Fault)> {
    let n = sizes(table, work, 0)?;
    refuse(first >= n || read(table, n, first).is_err(), NotAFile)?;
    let Followed { blocks, ends } = follow(table, n, first);
    refuse(list.len() < blocks.len(), ListTooShort)?;
    list[..blocks.len()].copy_from_slice(&blocks);
    Ok((blocks.len(), ends))
}

/// "0 whole, 1 cut, 2 shared, 3 not followed": of each of some first blocks.
pub fn shared(table: &[u8], work: &mut [u32], firsts: &[u32], list: &mut [u32]) -> Outcome<()> {
    let n = sizes(table, work, firsts.len())?;
    refuse(list.len() < firsts.len(), ListTooShort)?;
    let mut spent = 0;
    let mut kinds = vec![];
    for &first in firsts {
        if spent > 4 * n {
            kinds.push((3, vec![]));
            continue;
        }
        let followed = follow(table, n, first as usize);
        spent += followed.blocks.len();
        kinds.push((u32::from(followed.ends.rule != 0), followed.blocks));
    }
    let mut times: HashMap<u32, u32> = HashMap::new();
    for b in kinds.iter().filter(|(kind, _)| *kind == 0).flat_map(|(_, blocks)| blocks) {
        *times.entry(*b).or_default() += 1;
    }
    for ((kind, blocks), place) in kinds.iter().zip(list) {
        *place = if *kind == 0 && blocks.iter().any(|b| times[b] > 1) { 2 } else { *kind };
    }
    Ok(())
}

/// The chains of some first blocks, each as far as it can be followed; rule 9 for one that is not followed. Three numbers for each, and the blocks of all.
pub fn chains(table: &[u8], work: &mut [u32], firsts: &[u32], ends: &mut [usize], list: &mut [u32]) -> Outcome<usize> {
    let n = sizes(table, work, firsts.len())?;
    refuse(ends.len() < 3 * firsts.len(), ListTooShort)?;
    let (mut told, mut blocks) = (vec![], vec![]);
    for &first in firsts {
        if blocks.len() > 4 * n {
            told.extend([0, 0, 9]);
            continue;
        }
        let followed = follow(table, n, first as usize);
        told.extend([followed.blocks.len(), followed.ends.entry, followed.ends.rule as usize]);
        blocks.extend(followed.blocks);
    }
    refuse(list.len() < blocks.len(), ListTooShort)?;
    ends[..told.len()].copy_from_slice(&told);
    list[..blocks.len()].copy_from_slice(&blocks);
    Ok(blocks.len())
}

/// The entries below count and room, and those among them that the removed list names, as far as it can be followed.
fn removed(table: &[u8], width: usize, work: &mut [u32]) -> Outcome<(usize, HashSet<usize>)> {
    refuse(table.len() < width, SizeMismatch)?;
    let room = table.len() / width;
    refuse(room > 65_536, InvalidValue)?;
    refuse(work.len() < room, WorkTooShort)?;
    work[..room].fill(0);
    let bound = (word(table, 0) as usize).min(room);
    let collision = |inode: usize| word(table, inode * width + width - 4) as usize;
    let mut gone = HashSet::new();
    let mut at = collision(0);
    while at != 0 && at < bound && gone.insert(at) {
        at = collision(at);
    }
    Ok((bound, gone))
}

/// The live entries of one table of entries of that width: "below count and room, and not named by the removed list as far as it can be followed".
pub fn entries(table: &[u8], width: usize, work: &mut [u32], list: &mut [u32]) -> Outcome<usize> {
    let (bound, gone) = removed(table, width, work)?;
    let live: Vec<u32> = (1..bound).filter(|inode| !gone.contains(inode)).map(|inode| inode as u32).collect();
    refuse(list.len() < live.len(), ListTooShort)?;
    list[..live.len()].copy_from_slice(&live);
    Ok(live.len())
}

/// The directories from an inode up: "below count and room, over none that is removed, and over none twice"; the root has no parent.
pub fn way(table: &[u8], work: &mut [u32], inode: u32, list: &mut [u32]) -> Outcome<usize> {
    let (bound, mut met) = removed(table, 40, work)?;
    let mut way = vec![];
    let mut at = inode as usize;
    while at != 0 && at < bound && met.insert(at) {
        way.push(at as u32);
        at = if at == 1 { 0 } else { word(table, 40 * at) as usize };
    }
    refuse(list.len() < way.len(), ListTooShort)?;
    list[..way.len()].copy_from_slice(&way);
    Ok(way.len())
}
