//! Block volumes to run calls on: formatted ones, and arbitrary sound ones with junk in every entry that the rules never read.

use crate::chance::Chance;
use port::Blocks;
use rules::blocks::{lay_out, layout, Chain, Layout, Run};

/// The blocks cut into runs at random.
fn runs(chance: &mut Chance, n: usize) -> Vec<Run> {
    let largest = chance.pick(&[1, 2, 3, 4, 8, n]);
    let mut runs = vec![];
    let mut start = 0;
    while start < n {
        let size = chance.within(1, largest.min(n - start).max(1));
        runs.push(Run { start, size });
        start += size;
    }
    runs
}

/// Any layout of n blocks: runs in any order, dealt to the free chain and some files.
pub fn any_layout(chance: &mut Chance, n: usize) -> Layout {
    let mut runs = runs(chance, n);
    chance.shuffle(&mut runs);
    let chains = chance.within(1, runs.len().min(6) + 1);
    let mut dealt: Vec<Chain> = vec![vec![]; chains];
    for run in runs {
        let to = chance.below(chains);
        dealt[to].push(run);
    }
    let free = if chance.one_in(5) { vec![] } else { dealt.pop().unwrap() };
    dealt.retain(|chain| !chain.is_empty());
    dealt.sort_by_key(|chain| chain[0].start);
    Layout { free, files: dealt }
}

pub fn any_size(chance: &mut Chance) -> usize {
    match chance.below(8) {
        0 => chance.within(1, 2),
        1..=4 => chance.within(3, 12),
        5 | 6 => chance.within(13, 40),
        _ => chance.within(41, 200),
    }
}

/// A block length at which tables may be changed: 512, and 4,096 now and then where there are few blocks.
pub fn any_block_len(chance: &mut Chance, n: usize) -> usize {
    if n <= 12 && chance.one_in(8) { 4_096 } else { 512 }
}

/// A volume with that table; data, work and lists hold junk.
pub fn volume(chance: &mut Chance, table: Vec<u8>, block_len: usize) -> Blocks {
    let n = table.len() / 8 - 1;
    let spare = chance.below(3);
    Blocks {
        table,
        data: chance.bytes(n * block_len),
        block_len,
        work: chance.words(n + spare),
        list: chance.words(n),
        buf: vec![],
    }
}

/// A formatted volume, over zeros or over junk.
pub fn formatted(chance: &mut Chance) -> Blocks {
    let n = any_size(chance);
    let len = 8 * (n + 1);
    let mut table = if chance.one_in(2) { vec![0; len] } else { chance.bytes(len) };
    rules::blocks::format(&mut table).unwrap();
    let block_len = any_block_len(chance, n);
    volume(chance, table, block_len)
}

/// An arbitrary sound volume over junk.
pub fn any_sound(chance: &mut Chance) -> Blocks {
    let n = any_size(chance);
    let wanted = any_layout(chance, n);
    let mut table = chance.bytes(8 * (n + 1));
    lay_out(&mut table, &wanted);
    let held = layout(&table).expect("a table that is laid out is sound");
    assert_eq!(held, wanted, "a table holds what is laid out in it");
    let block_len = any_block_len(chance, n);
    volume(chance, table, block_len)
}
