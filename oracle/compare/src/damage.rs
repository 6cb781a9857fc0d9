//! Damaged and arbitrary tables: the rules judge, the library must give the same. Never a crash, never a loop.

use crate::chance::Chance;
use crate::check::{block_call, tree_call};
use crate::tree_history::seen;
use crate::{block_history, trees, volumes};
use port::{BlockCall, Blocks, Kind, Tree, TreeCall};
use rules::blocks::{layout, set_node, Run};
use rules::opens::{Packed, WRITER};
use rules::tree::{moved, tree, FourMut};
use rules::{put_word, word};

/// Numbers that a link, count or index might wrongly be, for tables of about n entries.
fn likely_word(chance: &mut Chance, n: usize) -> u32 {
    let flag = if chance.one_in(2) { 0x8000_0000 } else { 0 };
    match chance.below(8) {
        0 => chance.pick(&[0, 0x7FFF_FFFF, 0x8000_0000, 0xFFFF_FFFF, 0x7FFF_FFFE, 1 << 16, (1 << 16) + 1]),
        1 => chance.next() as u32,
        _ => flag | chance.within(0, n + 2) as u32,
    }
}

/// A byte in another way: one bit turned, one up, one down, none or all set.
fn other_byte(byte: u8, way: usize) -> u8 {
    match way {
        0..=7 => byte ^ (1 << way),
        8 => byte.wrapping_add(1),
        9 => byte.wrapping_sub(1),
        10 => 0,
        _ => 0xFF,
    }
}

const WAYS: usize = 12;

// Blocks.

/// Any call with any numbers, on a table that need not be sound.
fn wild_block_call(chance: &mut Chance, lent: &mut Blocks) -> BlockCall {
    let n = lent.table.len() / 8 - 1;
    let first = chance.within(0, n);
    let count = chance.within(0, n + 1);
    let pos = chance.within(0, n * lent.block_len + 1);
    let len = chance.within(0, 2 * lent.block_len + 1);
    lent.buf = chance.bytes(len);
    match chance.below(7) {
        0 => BlockCall::OpenList { first },
        1 | 2 => BlockCall::Create { count },
        3 => BlockCall::Resize { first, count },
        4 => BlockCall::Delete { first },
        5 => BlockCall::Read { first, pos },
        _ => BlockCall::Write { first, pos },
    }
}

/// The test and one other call on these tables.
fn judge_blocks(chance: &mut Chance, lent: &Blocks) {
    block_call(&BlockCall::Test, &mut lent.clone());
    let mut lent = lent.clone();
    let call = wild_block_call(chance, &mut lent);
    block_call(&call, &mut lent);
}

/// Every byte of the table in every way, then every word by likely ones.
pub fn each_block_byte(chance: &mut Chance, lent: &Blocks) {
    let n = lent.table.len() / 8 - 1;
    for at in 0..lent.table.len() {
        for way in 0..WAYS {
            let mut damaged = lent.clone();
            damaged.table[at] = other_byte(damaged.table[at], way);
            judge_blocks(chance, &damaged);
        }
    }
    for at in (0..lent.table.len()).step_by(4) {
        for index in 0..=n as u32 + 2 {
            for flag in [0, 0x8000_0000] {
                let mut damaged = lent.clone();
                put_word(&mut damaged.table, at, index | flag);
                judge_blocks(chance, &damaged);
            }
        }
    }
}

/// Nodes at random, linked at random: rings, crossed links, shared blocks, and now and then a sound table.
fn relinked(chance: &mut Chance, lent: &mut Blocks) {
    let Some(held) = layout(&lent.table) else { return };
    let mut runs: Vec<Run> = held.free.clone();
    runs.extend(held.files.iter().flatten());
    match chance.below(4) {
        // A ring whose links all agree, of some of the nodes.
        0 => {
            chance.shuffle(&mut runs);
            let size = chance.within(1, runs.len());
            let ring = &runs[..size];
            for i in 0..size {
                let prev = ring[(i + size - 1) % size].start;
                let next = ring[(i + 1) % size].start;
                set_node(&mut lent.table, ring[i], Some(prev), Some(next));
            }
        }
        // Two nodes exchange what they name as next, with or without the way back.
        1 => {
            let (a, b) = (chance.pick(&runs), chance.pick(&runs));
            let (at, bt) = ((a.start + 1) * 8 + 4, (b.start + 1) * 8 + 4);
            let (x, y) = (word(&lent.table, at), word(&lent.table, bt));
            let flag = 0x8000_0000;
            put_word(&mut lent.table, at, (x & flag) | (y & !flag));
            put_word(&mut lent.table, bt, (y & flag) | (x & !flag));
        }
        // Every node names any other as its next, and as its previous that one which named it last: rings, and tails into them.
        2 => {
            let next: Vec<usize> = runs.iter().map(|_| chance.below(runs.len())).collect();
            for (i, run) in runs.iter().enumerate() {
                let prev = next.iter().rposition(|j| *j == i).map(|j| runs[j].start);
                let named = (!chance.one_in(4)).then(|| runs[next[i]].start);
                set_node(&mut lent.table, *run, prev, named);
            }
            put_word(&mut lent.table, 4, 0);
        }
        // A node over other nodes' blocks.
        _ => {
            let n = lent.table.len() / 8 - 1;
            let start = chance.below(n);
            let size = chance.within(1, n - start);
            set_node(&mut lent.table, Run { start, size }, None, None);
        }
    }
}

/// A sound volume, damaged in a few places.
pub fn damaged_blocks(chance: &mut Chance) {
    let mut lent = volumes::any_sound(chance);
    let n = lent.table.len() / 8 - 1;
    if chance.one_in(2) {
        relinked(chance, &mut lent);
    } else {
        for _ in 0..chance.within(1, 3) {
            let at = 4 * chance.below(lent.table.len() / 4);
            let value = likely_word(chance, n);
            put_word(&mut lent.table, at, value);
        }
    }
    judge_blocks(chance, &lent);
}

/// Nothing but likely words.
pub fn arbitrary_blocks(chance: &mut Chance) {
    let n = chance.within(1, 4);
    let mut table = vec![0; 8 * (n + 1)];
    for at in (0..table.len()).step_by(4) {
        let value = if at == 0 { 0 } else { likely_word(chance, n) };
        put_word(&mut table, at, value);
    }
    let lent = volumes::volume(chance, table, 512);
    judge_blocks(chance, &lent);
}

/// Every table of n blocks whose words are indexes up to one past n, with and without the flag; the first word is 0. The test and one create on each: how many there are.
pub fn all_small(n: usize) -> usize {
    let values: Vec<u32> = (0..=n as u32 + 1).flat_map(|i| [i, i | 0x8000_0000]).collect();
    let words = 2 * (n + 1) - 1;
    let mut lent = Blocks {
        table: vec![0; 8 * (n + 1)],
        data: vec![],
        block_len: 512,
        work: vec![7; n],
        list: vec![],
        buf: vec![],
    };
    let all = values.len().pow(words as u32);
    for case in 0..all {
        let mut rest = case;
        for w in 1..=words {
            put_word(&mut lent.table, w * 4, values[rest % values.len()]);
            rest /= values.len();
        }
        if block_call(&BlockCall::Test, &mut lent).number == 0 {
            lent.data = vec![0; n * lent.block_len];
            block_call(&BlockCall::Create { count: 1 }, &mut lent);
            lent.data = vec![];
        }
    }
    all
}

// Tree.

/// Any call with any numbers, on tables that need not be sound.
pub fn wild_tree_call(chance: &mut Chance, lent: &Tree) -> TreeCall {
    let kind = chance.pick(&[Kind::Dir, Kind::File]);
    let (dirs, these) = (lent.room(Kind::Dir), lent.room(kind));
    let parent = chance.within(0, dirs) as u32;
    let inode = chance.within(0, these) as u32;
    let name = trees::any_name(chance);
    let carried = [chance.next() as u8; 20];
    let want = chance.pick(&[0, 0, 0, 1, 1, 1, 2, u32::MAX]);
    match chance.below(12) {
        0 => TreeCall::Lookup { kind, parent, name: trees::any_bytes_name(chance) },
        1 => TreeCall::Make { kind, parent, name, carried },
        2 => TreeCall::Rename { kind, inode, parent, name },
        3 => TreeCall::Delete { kind, inode },
        4 => TreeCall::List { kind, inode: parent },
        5 => TreeCall::Stat,
        6 => TreeCall::Name { kind: chance.below(3) as u32, inode },
        7 => TreeCall::NameAnswer { kind: chance.below(3) as u32, inode },
        8 => TreeCall::Carried { kind, inode },
        9 => TreeCall::SetCarried { kind, inode, carried },
        10 => TreeCall::Open { kind, inode, want },
        _ => TreeCall::Close { kind, inode, want },
    }
}

fn judge_tree(chance: &mut Chance, lent: &Tree) {
    tree_call(&TreeCall::Test, &mut lent.clone());
    let call = wild_tree_call(chance, lent);
    tree_call(&call, &mut lent.clone());
}

/// The four tables by number.
fn part(lent: &mut Tree, which: usize) -> &mut Vec<u8> {
    match which {
        0 => &mut lent.dir_hash,
        1 => &mut lent.dir_table,
        2 => &mut lent.file_hash,
        _ => &mut lent.file_table,
    }
}

/// Every byte of the four tables in every way, then every word by every inode there is and a little more.
pub fn each_tree_byte(chance: &mut Chance, lent: &Tree) {
    let most = lent.room(Kind::Dir).max(lent.room(Kind::File)) as u32 + 1;
    for which in 0..4 {
        let len = part(&mut lent.clone(), which).len();
        for at in 0..len {
            for way in 0..WAYS {
                let mut damaged = lent.clone();
                let byte = &mut part(&mut damaged, which)[at];
                *byte = other_byte(*byte, way);
                judge_tree(chance, &damaged);
            }
        }
        for at in (0..len / 4 * 4).step_by(4) {
            for value in 0..=most {
                let mut damaged = lent.clone();
                put_word(part(&mut damaged, which), at, value);
                judge_tree(chance, &damaged);
            }
        }
    }
}

/// A step of rename that the call would refuse: a directory below itself, or a key that is there already.
fn wrongly_moved(chance: &mut Chance, lent: &mut Tree) {
    let Some(held) = tree(seen(lent)) else { return };
    let kind = chance.pick(&[Kind::Dir, Kind::File]);
    let movable: Vec<u32> =
        held.held(kind).inodes().filter(|x| kind == Kind::File || *x != 1).collect();
    if movable.is_empty() {
        return;
    }
    let inode = chance.pick(&movable);
    let dirs: Vec<u32> = held.dirs.inodes().collect();
    let parent = chance.pick(&dirs);
    let other = chance.pick(&movable);
    let view = seen(lent).view(kind);
    let name: [u8; 16] = view.key(other)[4..].try_into().unwrap();
    let mut four = FourMut {
        dir_hash: &mut lent.dir_hash,
        dir_table: &mut lent.dir_table,
        file_hash: &mut lent.file_hash,
        file_table: &mut lent.file_table,
    };
    moved(&mut four, &held, kind, inode, parent, &name);
}

/// A list of so many records as its places hold, each at an edge; now and then one that is not in order, or claims more than there are.
fn any_records(chance: &mut Chance, lent: &mut Tree, kind: Kind) {
    let room = lent.room(kind);
    let opens = lent.opens_mut(kind);
    let places = chance.below(2 * room + 4);
    *opens = Packed { list: chance.words(places), opened: 0 };
    for _ in 0..chance.below(room + 2) {
        let inode = chance.within(1, room + 1) as u32;
        let readers = chance.pick(&[0, 0, 0, 1, 2, 65_533, 65_534, 65_535, 65_536, 70_000, u32::MAX >> 1]);
        if !opens.full_for(inode) {
            opens.put(inode, readers + chance.pick(&[0, WRITER, WRITER]));
        }
    }
    if chance.one_in(6) {
        match chance.below(4) {
            0 => opens.opened = chance.pick(&[opens.opened + 1, opens.list.len(), 1 << 31, usize::MAX]),
            _ if opens.opened == 0 => {}
            _ => {
                let at = chance.below(2 * opens.opened);
                opens.list[at] = chance.pick(&[0, 1, room as u32]);
            }
        }
    }
}

/// Sound tables, damaged in a few places; records at their edges.
pub fn damaged_tree(chance: &mut Chance) {
    let mut lent = if chance.one_in(3) { trees::small_sound(chance) } else { trees::any_sound(chance) };
    for kind in [Kind::Dir, Kind::File] {
        any_records(chance, &mut lent, kind);
    }
    lent.list = chance.words(8);
    let most = lent.room(Kind::Dir).max(lent.room(Kind::File));
    match chance.below(4) {
        0 => {}
        1 => wrongly_moved(chance, &mut lent),
        _ => {
            for _ in 0..chance.within(1, 3) {
                let which = chance.pick(&[0, 1, 1, 1, 2, 3, 3]);
                let value = likely_word(chance, most);
                let bytes = part(&mut lent, which);
                let at = 4 * chance.below(bytes.len() / 4);
                put_word(bytes, at, value);
            }
        }
    }
    judge_tree(chance, &lent);
}

/// Every byte of one small volume and of small tables, then as many damaged ones as asked for.
pub fn run(chance: &mut Chance, whole: usize, cases: usize) {
    for _ in 0..whole {
        let mut lent = volumes::any_sound(chance);
        while lent.table.len() > 8 * 9 {
            lent = volumes::any_sound(chance);
        }
        let steps = chance.below(4);
        for _ in 0..steps {
            let call = block_history::any_call(chance, &mut lent);
            block_call(&call, &mut lent);
        }
        each_block_byte(chance, &lent);
        let tree = trees::small_sound(chance);
        each_tree_byte(chance, &tree);
    }
    for _ in 0..cases {
        damaged_blocks(chance);
        arbitrary_blocks(chance);
        damaged_tree(chance);
    }
}
