//! Lengths and numbers at every edge: 0, one short, one more, the largest, 2^32, 2^64 - 1, and products that wrap.

use crate::chance::Chance;
use crate::check::{block_call, block_call_on_data, tree_call};
use crate::{damage, trees, volumes};
use port::{BlockCall, Blocks, Kind, Tree, TreeCall};
use rules::opens::Packed;

const NUMBERS: [usize; 12] = [
    0,
    1,
    2,
    65_535,
    65_536,
    65_537,
    1_000_000,
    (1 << 31) - 1,
    1 << 31,
    1 << 32,
    1 << 63,
    usize::MAX,
];

const INODES: [u32; 8] = [0, 1, 2, 65_535, 65_536, 1 << 31, u32::MAX - 1, u32::MAX];

fn every_block_call(first: usize, number: usize) -> [BlockCall; 8] {
    [
        BlockCall::Format,
        BlockCall::Test,
        BlockCall::OpenList { first },
        BlockCall::Create { count: number },
        BlockCall::Resize { first, count: number },
        BlockCall::Delete { first },
        BlockCall::Read { first, pos: number },
        BlockCall::Write { first, pos: number },
    ]
}

/// Short tables, data that do not fit, block lengths whose product wraps.
fn block_lengths(chance: &mut Chance) {
    let lengths = [0, 1, 7, 8, 9, 15, 16, 17, 23, 24, 32, 40];
    for table_len in lengths {
        for data_len in [0, 1, 2, 3, 4, 5, 8, 511, 512, 513, 1_024, 2_048] {
            for block_len in [0, 1, 2, 3, 4, 512, 65_536, 65_537, 1 << 32, 1 << 62, (1 << 62) + 1, 1 << 63, (1 << 63) + 1, usize::MAX] {
                for work_len in [0, 1, 2, 3, 4, 6] {
                    let mut table = chance.bytes(table_len);
                    if chance.one_in(2) {
                        let _ = rules::blocks::format(&mut table);
                    }
                    let lent = Blocks {
                        table,
                        data: chance.bytes(data_len),
                        block_len,
                        work: chance.words(work_len),
                        list: chance.words(3),
                        buf: chance.bytes(2),
                    };
                    let call = chance.pick(&every_block_call(0, 1));
                    block_call(&call, &mut lent.clone());
                }
            }
        }
    }
}

/// Every call with every number on a sound volume.
fn block_numbers(chance: &mut Chance) {
    let lent = volumes::any_sound(chance);
    for first in NUMBERS {
        for number in NUMBERS {
            for call in every_block_call(first, number) {
                block_call(&call, &mut lent.clone());
            }
        }
    }
    for first in 0..lent.table.len() / 8 {
        for number in NUMBERS {
            for call in every_block_call(first, number) {
                block_call(&call, &mut lent.clone());
            }
        }
    }
}

/// The largest volumes, and one block more. The data are many and lent once.
fn large_blocks(chance: &mut Chance) {
    const LEN: usize = 512;
    for n in [1_000_000, 1_000_001] {
        let mut lent = Blocks {
            table: vec![0xA5; 8 * (n + 1)],
            data: vec![0; n * LEN],
            block_len: LEN,
            work: vec![9; n],
            list: vec![4; 8],
            buf: vec![6; 3],
        };
        let end = (n - 3) * LEN;
        for call in [
            BlockCall::Format,
            BlockCall::Test,
            BlockCall::Create { count: n - 3 },
            BlockCall::Create { count: 4 },
            BlockCall::Read { first: 0, pos: end - 3 },
            BlockCall::Read { first: 0, pos: end - 2 },
            BlockCall::Resize { first: 0, count: 7 },
            BlockCall::OpenList { first: 0 },
        ] {
            block_call_on_data(&call, &mut lent);
        }
        lent.work.pop();
        block_call_on_data(&BlockCall::Test, &mut lent);
    }
    let n = chance.within(60_000, 70_000);
    let mut table = chance.bytes(8 * (n + 1));
    let layout = volumes::any_layout(chance, n);
    rules::blocks::lay_out(&mut table, &layout);
    let mut lent = volumes::volume(chance, table, 1);
    block_call(&BlockCall::Test, &mut lent);
}

/// The largest tables of single blocks, linked so that a search for rings that is not linear would not come back: one ring, a tail of all into a ring of
/// two, all that name block 0, and any order.
fn large_rings(chance: &mut Chance) {
    let n = 1_000_000;
    let mut any: Vec<usize> = (0..n).collect();
    chance.shuffle(&mut any);
    let shapes: [&dyn Fn(usize) -> usize; 4] =
        [&|b| (b + 1) % n, &|b| if b == n - 1 { n - 2 } else { b + 1 }, &|_| 0, &|b| any[b]];
    for next in shapes {
        let mut lent = Blocks { table: vec![0; 8 * (n + 1)], work: vec![3; n], ..Blocks::default() };
        let mut prev = vec![None; n];
        (0..n).for_each(|b| prev[next(b)] = Some(b));
        for b in 0..n {
            rules::blocks::set_node(&mut lent.table, rules::blocks::Run { start: b, size: 1 }, prev[b], Some(next(b)));
        }
        let answered = block_call_on_data(&BlockCall::Test, &mut lent);
        assert_eq!((answered.number, answered.fault.1), (4, 7));
    }
}

/// One block of every length at an edge, with a file in it: read to its end, and a byte more. Where the length is in use the file is created and written,
/// and where it is not both are refused.
fn long_blocks() {
    for block_len in [511, 512, 513, 4_095, 4_096, 4_097, 65_535, 65_536, 65_537] {
        let mut lent = Blocks {
            table: vec![0; 16],
            data: vec![0; block_len],
            block_len,
            work: vec![1],
            list: vec![7],
            buf: vec![7; 5],
        };
        rules::blocks::format(&mut lent.table).unwrap();
        let created = block_call(&BlockCall::Create { count: 1 }, &mut lent);
        block_call(&BlockCall::Write { first: 0, pos: block_len - 5 }, &mut lent);
        block_call(&BlockCall::Write { first: 0, pos: block_len - 4 }, &mut lent);
        if created.number != 0 {
            let file = vec![rules::blocks::Run { start: 0, size: 1 }];
            rules::blocks::lay_out(&mut lent.table, &rules::blocks::Layout { free: vec![], files: vec![file] });
        }
        block_call(&BlockCall::OpenList { first: 0 }, &mut lent);
        block_call(&BlockCall::Read { first: 0, pos: block_len - 5 }, &mut lent);
        block_call(&BlockCall::Read { first: 0, pos: block_len - 4 }, &mut lent);
    }
}

fn every_tree_call(kind: Kind, inode: u32, other: u32) -> Vec<TreeCall> {
    let (name, carried) = ([7; 16], [8; 20]);
    vec![
        TreeCall::Test,
        TreeCall::Lookup { kind, parent: inode, name },
        TreeCall::Make { kind, parent: inode, name, carried },
        TreeCall::Rename { kind, inode, parent: other, name },
        TreeCall::Delete { kind, inode },
        TreeCall::List { kind, inode },
        TreeCall::Stat,
        TreeCall::Name { kind: other, inode },
        TreeCall::NameAnswer { kind: other, inode },
        TreeCall::Carried { kind, inode },
        TreeCall::SetCarried { kind, inode, carried },
        TreeCall::Open { kind, inode, want: 0 },
        TreeCall::Open { kind, inode, want: other },
        TreeCall::Close { kind, inode, want: 1 },
        TreeCall::Close { kind, inode, want: other },
    ]
}

/// Every call with every inode on sound tables.
fn tree_numbers(chance: &mut Chance) {
    let mut lent = trees::any_sound(chance);
    lent.list = chance.words(3);
    let small = 0..=lent.room(Kind::Dir).max(lent.room(Kind::File)) as u32;
    let inodes: Vec<u32> = small.chain(INODES).collect();
    for kind in [Kind::Dir, Kind::File] {
        for inode in &inodes {
            let other = chance.pick(&inodes);
            for call in every_tree_call(kind, *inode, other) {
                tree_call(&call, &mut lent.clone());
            }
        }
    }
}

/// Each lent thing one shorter, one longer, empty, and odd.
fn tree_lengths(chance: &mut Chance) {
    let mut lent = trees::small_sound(chance);
    lent.list = chance.words(4);
    let other = |len: usize, chance: &mut Chance| {
        let by = chance.pick(&[0, 1, 2, 3, 4, 5, 40, 48]);
        match chance.below(4) {
            0 => by,
            1 => len.saturating_sub(by),
            _ => len + by,
        }
    };
    for _ in 0..200 {
        let mut cut: Tree = lent.clone();
        for _ in 0..chance.within(1, 2) {
            match chance.below(8) {
                0 => cut.dir_hash.resize(other(cut.dir_hash.len(), chance), 0),
                1 => cut.dir_table.resize(other(cut.dir_table.len(), chance), 0),
                2 => cut.file_hash.resize(other(cut.file_hash.len(), chance), 0),
                3 => cut.file_table.resize(other(cut.file_table.len(), chance), 0),
                4 => cut.work.resize(other(cut.work.len(), chance), 5),
                5 => cut.dir_opens.list.resize(other(cut.dir_opens.list.len(), chance), 1),
                6 => cut.file_opens.list.resize(other(cut.file_opens.list.len(), chance), 1),
                _ => cut.opens_mut(chance.pick(&[Kind::Dir, Kind::File])).opened = chance.below(4),
            }
        }
        tree_call(&TreeCall::Test, &mut cut.clone());
        let call = damage::wild_tree_call(chance, &cut);
        tree_call(&call, &mut cut.clone());
        let (dir_max, file_max) = (chance.below(9), chance.below(9));
        tree_call(&TreeCall::Format { dir_max, file_max }, &mut cut);
    }
}

/// Format with every maximum, also those whose product with the width wraps.
fn tree_maxima(chance: &mut Chance) {
    let maxima = [0, 1, 2, 3, 4, 65_536, 65_537, 1 << 32, 1 << 60, 1 << 61, (1 << 61) + 1, 1 << 62, 1 << 63, usize::MAX];
    for dir_max in maxima {
        for file_max in maxima {
            let lent = Tree {
                dir_hash: chance.bytes(12),
                dir_table: chance.bytes(4 * 40 + 3),
                file_hash: chance.bytes(8),
                file_table: chance.bytes(4 * 48 + 5),
                ..Tree::default()
            };
            tree_call(&TreeCall::Format { dir_max, file_max }, &mut lent.clone());
        }
    }
}

/// The largest rooms and bucket counts, and one more.
fn large_trees() {
    for (dirs, files, buckets) in [(65_536, 2, 1), (65_537, 2, 1), (2, 65_536, 65_536), (2, 65_537, 1), (2, 1, 65_537)] {
        let mut lent = Tree {
            dir_hash: vec![1; 4 * buckets],
            dir_table: vec![2; 40 * dirs],
            file_hash: vec![3; 4],
            file_table: vec![4; 48 * files],
            work: vec![5; dirs + files],
            dir_opens: Packed::none(2),
            file_opens: Packed::none(2),
            list: vec![9; 2],
        };
        for (dir_max, file_max) in [(dirs, files), (65_536, 1), (65_537, 1), (2, 65_536), (2, 65_537), (2, 1)] {
            tree_call(&TreeCall::Format { dir_max, file_max }, &mut lent);
        }
        tree_call(&TreeCall::Test, &mut lent);
        let made = TreeCall::Make { kind: Kind::Dir, parent: 1, name: [1; 16], carried: [2; 20] };
        tree_call(&made, &mut lent);
        tree_call(&made, &mut lent);
    }
}

pub fn run(chance: &mut Chance, times: usize) {
    large_blocks(chance);
    large_rings(chance);
    long_blocks();
    large_trees();
    tree_maxima(chance);
    for _ in 0..times {
        block_lengths(chance);
        block_numbers(chance);
        tree_numbers(chance);
        tree_lengths(chance);
    }
}
