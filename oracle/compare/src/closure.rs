//! Everything that can be reached on small tables: every call on every reachable table, and all short histories with their handles kept.

use crate::chance::Chance;
use crate::merged::merged_table;
use crate::{block_history, tree_history};
use port::{BlockCall, Blocks, Kind, Tree, TreeCall};
use rules::blocks::layout;
use rules::opens::{readers, Packed};
use rules::tree::tree;
use std::collections::{HashSet, VecDeque};

const BLOCK_LEN: usize = 512;

/// A volume with that table, and other bytes in each block.
fn volume(table: Vec<u8>) -> Blocks {
    let n = table.len() / 8 - 1;
    Blocks {
        table,
        data: (0..n * BLOCK_LEN).map(|at| (at / BLOCK_LEN * 64 + at % 61) as u8).collect(),
        block_len: BLOCK_LEN,
        work: vec![77; n + 1],
        list: vec![99; n],
        buf: vec![55; 2],
    }
}

fn formatted(n: usize, fill: Vec<u8>) -> Vec<u8> {
    let mut table = fill;
    assert_eq!(table.len(), 8 * (n + 1));
    rules::blocks::format(&mut table).unwrap();
    table
}

/// Every block call with numbers up to one past n.
fn all_block_calls(n: usize) -> Vec<BlockCall> {
    let mut calls = vec![BlockCall::Format, BlockCall::Test];
    calls.extend((0..=n + 1).map(|count| BlockCall::Create { count }));
    for first in 0..=n {
        calls.push(BlockCall::OpenList { first });
        calls.push(BlockCall::Delete { first });
        calls.extend((0..=n + 1).map(|count| BlockCall::Resize { first, count }));
        // Two bytes: within a block up to its end, and over each border between two.
        for pos in (1..=n).flat_map(|block| [block * BLOCK_LEN - 2, block * BLOCK_LEN - 1]) {
            calls.extend([BlockCall::Read { first, pos }, BlockCall::Write { first, pos }]);
        }
    }
    calls
}

/// Every call on every table that can be reached from this one: how many tables there are.
pub fn reach_blocks(n: usize, fill: Vec<u8>) -> usize {
    let first = formatted(n, fill);
    let mut met = HashSet::from([first.clone()]);
    let mut waiting = VecDeque::from([first]);
    let calls = all_block_calls(n);
    while let Some(table) = waiting.pop_front() {
        let merged = merged_table(&table);
        if met.insert(merged.clone()) {
            waiting.push_back(merged);
        }
        for call in &calls {
            let mut session = block_history::Session::new(volume(table.clone()));
            session.run(call);
            if met.insert(session.lent.table.clone()) {
                session.compare_lists();
                waiting.push_back(session.lent.table);
            }
        }
    }
    met.len()
}

/// The calls that change a table and are Done or NoSpace there.
fn changing(table: &[u8]) -> Vec<BlockCall> {
    let n = table.len() / 8 - 1;
    let held = layout(table).unwrap();
    let mut calls: Vec<BlockCall> = (1..=n).map(|count| BlockCall::Create { count }).collect();
    for chain in &held.files {
        let first = chain[0].start;
        calls.push(BlockCall::Delete { first });
        calls.extend((1..=n).map(|count| BlockCall::Resize { first, count }));
    }
    calls
}

/// All histories of that length, handles kept from the first call to the last: how many there are.
pub fn all_block_histories(n: usize, depth: usize) -> usize {
    fn go(n: usize, depth: usize, path: &mut Vec<BlockCall>) -> usize {
        let mut session = block_history::Session::new(volume(formatted(n, vec![0; 8 * (n + 1)])));
        for call in path.iter() {
            session.run(call);
        }
        session.compare_lists();
        if path.len() == depth {
            return 1;
        }
        let mut count = 0;
        for call in changing(&session.lent.table) {
            path.push(call);
            count += go(n, depth, path);
            path.pop();
        }
        count
    }
    go(n, depth, &mut vec![])
}

/// Small tables for the tree: so many directory and file entries and buckets.
fn small_tree(dirs: usize, files: usize, buckets: usize) -> Tree {
    let mut lent = Tree {
        dir_hash: vec![1; 4 * buckets],
        dir_table: vec![0; 40 * dirs],
        file_hash: vec![1; 4 * buckets],
        file_table: vec![0; 48 * files],
        work: vec![77; dirs + files],
        // Fewer places than entries: lists fill.
        dir_opens: Packed::none(2 * dirs - 3),
        file_opens: Packed::none(2 * files - 2),
        list: vec![99; 4],
    };
    let format = TreeCall::Format { dir_max: dirs, file_max: files };
    assert_eq!(crate::check::tree_call(&format, &mut lent).number, 0);
    lent
}

fn all_tree_calls(lent: &Tree) -> Vec<TreeCall> {
    let names = [[b'a'; 16], *b"b\0\0\0\0\0\0\0\0\0\0\0\0\0\0\0"];
    let dirs = lent.room(Kind::Dir) as u32;
    let mut calls = vec![TreeCall::Stat, TreeCall::Test];
    for kind in [Kind::Dir, Kind::File] {
        for parent in 1..dirs {
            calls.push(TreeCall::List { kind, inode: parent });
            for name in names {
                calls.push(TreeCall::Lookup { kind, parent, name });
                calls.push(TreeCall::Make { kind, parent, name, carried: [parent as u8; 20] });
                for inode in 1..lent.room(kind) as u32 {
                    calls.push(TreeCall::Rename { kind, inode, parent, name });
                }
            }
        }
        for inode in 0..=lent.room(kind) as u32 {
            calls.push(TreeCall::Delete { kind, inode });
            calls.extend([0, 1].map(|want| TreeCall::Close { kind, inode, want }));
            calls.push(TreeCall::Open { kind, inode, want: 1 });
            // Readers stay few, so that the tables that can be reached are finitely many.
            if readers(lent.opens(kind).record(inode)) < 1 {
                calls.push(TreeCall::Open { kind, inode, want: 0 });
            }
        }
    }
    calls
}

/// Every call on the first tables that can be reached, up to a limit: how many tables were met.
pub fn reach_tree(dirs: usize, files: usize, buckets: usize, most: usize) -> usize {
    let key = |t: &Tree| (t.four().map(|b| b.to_vec()), t.dir_opens.records(), t.file_opens.records());
    let first = small_tree(dirs, files, buckets);
    let mut met = HashSet::from([key(&first)]);
    let mut waiting = VecDeque::from([first]);
    while let Some(lent) = waiting.pop_front() {
        for call in all_tree_calls(&lent) {
            let mut session = tree_history::Session::new(lent.clone());
            session.run(&call);
            session.lent.list = vec![99; 4];
            if met.len() < most && met.insert(key(&session.lent)) {
                assert!(tree(tree_history::seen(&session.lent)).is_some());
                waiting.push_back(session.lent);
            }
        }
    }
    met.len()
}

/// The small tables: all of them for blocks, and the first `most` for each shape of the tree.
pub fn run(chance: &mut Chance, depth: usize, most: usize) {
    for n in 1..=4 {
        let zeros = reach_blocks(n, vec![0; 8 * (n + 1)]);
        let junk = reach_blocks(n, chance.bytes(8 * (n + 1)));
        let histories = all_block_histories(n, depth);
        println!("n = {n}: every call on {zeros} + {junk} reachable tables, all {histories} histories of {depth} changing calls");
    }
    for (dirs, files, buckets) in [(2, 2, 1), (3, 2, 1), (3, 3, 2), (4, 2, 1)] {
        let met = reach_tree(dirs, files, buckets, most);
        println!("tree of {dirs} and {files} entries, {buckets} buckets: every call on {met} reachable states");
    }
}
