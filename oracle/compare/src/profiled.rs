//! The demo kiosk: the rules and the library on volumes in the profile, on such with each rule broken, and on any; creates on free chains of every shape.

use crate::audited;
use crate::block_history::{any_call, Session};
use crate::chance::Chance;
use crate::check::short;
use crate::volumes;
use port::{Answered, Blocks, Kiosk, KioskCreate};
use rules::blocks::{blocks, lay_out, layout, Chain, Layout, Run};
use rules::entries::{Kind, Name};
use rules::opens::Packed;
use rules::put_word;
use rules::tree::{self, FourMut};
use std::sync::atomic::{AtomicU64, Ordering::Relaxed};

/// How often the test gave each number (0, 1, 2, 3, 4, 9) and each rule (0 to 6); the create each number (0, 1, 2, 3, 4, 6, 20), and how often a node was
/// taken whole, cut, and not the first of the chain.
static ANSWERS: [AtomicU64; 6] = [const { AtomicU64::new(0) }; 6];
static RULES: [AtomicU64; 7] = [const { AtomicU64::new(0) }; 7];
static CREATES: [AtomicU64; 10] = [const { AtomicU64::new(0) }; 10];

pub fn met() -> (Vec<u64>, Vec<u64>, Vec<u64>) {
    let read = |counts: &[AtomicU64]| counts.iter().map(|count| count.load(Relaxed)).collect();
    (read(&ANSWERS), read(&RULES), read(&CREATES))
}

// The test.

/// Both answer the same and leave the same, and so does the inner call where the tables are sound: number and rule.
fn same(lent: &mut Kiosk) -> (u32, u32) {
    let before = lent.clone();
    let (mut library, mut inner) = (lent.clone(), lent.clone());
    let said: Answered = lent.stated();
    let answered = library.library();
    assert!(answered == said && library == *lent, "the library differs\nlent {}\nrules {said:?}\nlibrary {answered:?}", short(&before));
    if said.number == 0 {
        let answered = inner.inner();
        assert!(answered == said && inner == *lent, "the inner call differs\nlent {}\nrules {said:?}\ninner {answered:?}", short(&before));
        RULES[said.fields[0] as usize].fetch_add(1, Relaxed);
    }
    let place = [0, 1, 2, 3, 4, 9].iter().position(|n| *n == said.number).expect("a number of the test");
    ANSWERS[place].fetch_add(1, Relaxed);
    (said.number, said.fields.first().copied().unwrap_or(0) as u32)
}

/// A name of the profile, or one that is about it.
fn any_name(chance: &mut Chance, simple: bool) -> Name {
    let mut name = [0; 16];
    let len = chance.within(1, 16);
    for byte in &mut name[..len] {
        *byte = chance.pick(b"ABCMYZ0189");
    }
    if !simple {
        let at = chance.below(len);
        match chance.below(4) {
            0 if len < 15 => name[chance.within(len + 1, 15)] = b'A',
            1 => name[0] = 0,
            _ => name[at] = chance.pick(b"az@[/:_ \x01\xff"),
        }
    }
    name
}

/// Files in single nodes, and a free chain of what is left over.
fn single_files(chance: &mut Chance, n: usize) -> Layout {
    let mut runs = vec![];
    let mut at = 0;
    while at < n {
        let size = chance.within(1, (n - at).min(1 + n / 6));
        runs.push(Run { start: at, size });
        at += size;
    }
    chance.shuffle(&mut runs);
    let files = chance.below(runs.len() + 1).min(70);
    let mut files: Vec<Chain> = runs.split_off(runs.len() - files).into_iter().map(|run| vec![run]).collect();
    files.sort_by_key(|chain| chain[0].start);
    Layout { free: runs, files }
}

/// How a volume is made: in the profile but for what is said.
#[derive(Clone, Copy, Default)]
struct Way {
    large: bool,
    directory: bool,
    crowd: bool,
    scattered: bool,
    odd: bool,
    unclean: bool,
}

/// A sound volume made in a way. Some files are removed again, some have size 0.
fn volume(chance: &mut Chance, way: Way) -> Kiosk {
    let n = if way.large { chance.within(8_192, 8_200) } else if chance.one_in(12) { 8_191 } else { volumes::any_size(chance) };
    let mut held = single_files(chance, n);
    if way.scattered && held.files.len() > 1 {
        let last = held.files.pop().unwrap();
        held.files[0].extend(last);
    }
    let mut table = chance.bytes(8 * (n + 1));
    lay_out(&mut table, &held);
    let block_len = chance.pick(&[1, 2, 3, 512]);
    let empty = if way.crowd { 65 } else { chance.below(3) };
    let (dirs, files) = (4, 2 + held.files.len() + empty + 3);
    let buckets = chance.within(1, 5);
    let (mut dir_hash, mut dir_table) = (vec![0; 4 * buckets], vec![0; 40 * dirs]);
    let (mut file_hash, mut file_table) = (vec![0; 4 * buckets], vec![0; 48 * files]);
    let (mut work, mut opens) = (vec![0; dirs + files], Packed::none(2 * files));
    let mut four = FourMut { dir_hash: &mut dir_hash, dir_table: &mut dir_table, file_hash: &mut file_hash, file_table: &mut file_table };
    tree::format(&mut four, dirs, files).unwrap();
    let mut parent = 1;
    if way.directory || chance.one_in(4) {
        let mut held = Packed::none(2 * dirs);
        parent = tree::make(&mut four, &mut work, &mut held, Kind::Dir, 1, b"DIR\0\0\0\0\0\0\0\0\0\0\0\0\0", &[0; 4]).unwrap();
        if !way.directory {
            tree::delete(&mut four, &mut work, &mut held, Kind::Dir, parent).unwrap();
            parent = 1;
        }
    }
    let mut records: Vec<(u32, u64)> = held.files.iter().map(|chain| (chain[0].start as u32, (blocks(chain) * block_len - chance.below(2)) as u64)).collect();
    records.retain(|(_, size)| *size > 0);
    records.extend((0..empty).map(|_| (chance.next() as u32, 0)));
    if way.unclean {
        records.push((chance.below(n) as u32, chance.pick(&[1, u64::MAX])));
    }
    chance.shuffle(&mut records);
    let odd = if way.odd { chance.below(records.len().max(1)) } else { usize::MAX };
    for (i, (block, size)) in records.into_iter().enumerate() {
        let mut carried = [0; 20];
        put_word(&mut carried, 4, block);
        put_word(&mut carried, 8, size as u32);
        put_word(&mut carried, 12, (size >> 32) as u32);
        if chance.one_in(6) {
            // One that is removed again: it is not counted, and its name not judged.
            let name = trees_name(chance, i, false);
            if let Ok(inode) = tree::make(&mut four, &mut work, &mut opens, Kind::File, parent, &name, &carried) {
                tree::delete(&mut four, &mut work, &mut opens, Kind::File, inode).unwrap();
            }
        }
        let name = trees_name(chance, i, i != odd);
        let _ = tree::make(&mut four, &mut work, &mut opens, Kind::File, parent, &name, &carried);
    }
    if way.odd && chance.one_in(2) {
        // A name that no make would give: the rules of soundness do not look at it, but the hash does.
        rename_empty(&mut four, &mut work);
    }
    let rooms = dirs + files;
    let spare = chance.below(3);
    Kiosk { table, data: chance.bytes(n * block_len), block_len, dir_hash, dir_table, file_hash, file_table, work: chance.words(n + rooms + spare) }
}

/// A name with its place among the others in it, so that no two are the same.
fn trees_name(chance: &mut Chance, i: usize, simple: bool) -> Name {
    let mut name = any_name(chance, simple);
    if name[0] != 0 {
        name[0] = b'A' + (i % 26) as u8;
        if name[1] != 0 {
            name[1] = b'0' + (i / 26 % 10) as u8;
        }
    }
    name
}

/// The first file gets the empty name.
fn rename_empty(four: &mut FourMut, work: &mut [u32]) {
    let held = tree::tree(four.four()).expect("a sound tree");
    let first = held.files.inodes().next();
    if let Some(inode) = first {
        tree::moved(four, &held, Kind::File, inode, 1, &[0; 16]);
        assert!(tree::test(four.four(), work).is_ok());
    }
}

/// A sound volume: in the profile, with one rule broken, or with several.
pub fn any_volume(chance: &mut Chance) -> Kiosk {
    let plain = Way::default();
    let way = match chance.below(8) {
        0 => Way { large: chance.one_in(4), ..plain },
        1 => Way { directory: true, ..plain },
        2 => Way { crowd: true, ..plain },
        3 => Way { scattered: true, ..plain },
        4 => Way { odd: true, ..plain },
        5 => Way { unclean: true, ..plain },
        6 => plain,
        _ => Way {
            large: chance.one_in(8),
            directory: chance.one_in(4),
            crowd: chance.one_in(4),
            scattered: chance.one_in(4),
            odd: chance.one_in(4),
            unclean: chance.one_in(6),
        },
    };
    volume(chance, way)
}

/// Such a volume, and with a work list that is a place short.
fn sound(chance: &mut Chance) {
    assert_eq!(same(&mut volume(chance, Way::default())).0, 0);
    let lent = any_volume(chance);
    assert_eq!(same(&mut lent.clone()).0, 0);
    let rooms = lent.dir_table.len() / 40 + lent.file_table.len() / 48;
    let mut lent = Kiosk { work: chance.words(lent.table.len() / 8 - 2 + rooms), ..lent };
    assert_eq!(same(&mut lent).0, 3);
}

/// What the audit is compared on, and that with a thing or two wrong.
fn any(chance: &mut Chance) {
    let a = audited::any_volume(chance);
    let mut lent = Kiosk {
        table: a.table,
        data: a.data,
        block_len: a.block_len,
        dir_hash: a.dir_hash,
        dir_table: a.dir_table,
        file_hash: a.file_hash,
        file_table: a.file_table,
        work: a.work,
    };
    same(&mut lent.clone());
    match chance.below(5) {
        0 => lent.data.truncate(chance.below(lent.data.len() + 1)),
        1 => lent.block_len = chance.pick(&[0, 65_537, usize::MAX]),
        2 => {
            let at = 4 * chance.below(lent.table.len() / 4);
            put_word(&mut lent.table, at, chance.pick(&[0, 0x8000_0000]) | chance.below(12) as u32);
        }
        3 => {
            let at = 4 * chance.below(lent.file_table.len() / 4);
            put_word(&mut lent.file_table, at, chance.below(12) as u32);
        }
        _ => {
            let at = 4 * chance.below(lent.dir_table.len() / 4);
            put_word(&mut lent.dir_table, at, chance.below(12) as u32);
        }
    }
    if lent.block_len == 0 {
        lent.data.clear();
    }
    same(&mut lent);
}

// The create.

/// Both answer the same and leave the same, and so does the inner call where the table is sound: number and first block.
fn same_create(lent: &mut KioskCreate, count: usize) -> (u32, usize) {
    let before = lent.clone();
    let (mut library, mut inner) = (lent.clone(), lent.clone());
    let said = lent.stated(count);
    let asked = || format!("{count} blocks: {before:?}");
    assert_eq!(library.library(count), said, "{}", asked());
    assert!(*lent == library, "the library leaves other bytes\n{}\nrules {lent:?}\nlibrary {library:?}", asked());
    let number = said.number;
    if matches!(number, 0 | 6 | 20) {
        assert_eq!(inner.inner(count), said, "{}", asked());
        assert!(*lent == inner, "the inner call leaves other bytes\n{}", asked());
    }
    assert!(number == 0 || lent.table == before.table, "the rules changed the table and refused with {number}");
    let place = [0, 1, 2, 3, 4, 6, 20].iter().position(|n| *n == number).expect("a number of create");
    CREATES[place].fetch_add(1, Relaxed);
    (number, said.fields.first().copied().unwrap_or(0) as usize)
}

/// What is asked of a create besides the rules' own words: one node more, every other file as it was, and the free chain but for the node that was cut.
fn asked(before: &Layout, first: usize, count: usize, after: &[u8]) {
    let now = layout(after).expect("a create leaves a sound table");
    let mut files = before.files.clone();
    files.push(vec![Run { start: first, size: count }]);
    files.sort_by_key(|chain| chain[0].start);
    assert_eq!(now.files, files, "one file more, in one node, and the others as they were");
    let at = before.free.iter().position(|run| run.start == first).expect("the file begins where a free node began");
    assert!(before.free[..at].iter().all(|run| run.size < count), "no node before it is long enough");
    let whole = before.free[at].size == count;
    let mut free = before.free.clone();
    if whole {
        free.remove(at);
    } else {
        free[at] = Run { start: first + count, size: free[at].size - count };
    }
    assert_eq!(now.free, free, "what is left of the node stands in its place");
    CREATES[if whole { 7 } else { 8 }].fetch_add(1, Relaxed);
    CREATES[9].fetch_add(u64::from(at > 0), Relaxed);
}

fn lend(volume: &Blocks) -> KioskCreate {
    KioskCreate { table: volume.table.clone(), data: volume.data.clone(), block_len: volume.block_len, work: volume.work.clone() }
}

/// Creates one after the other, counts about the free nodes' sizes; then the volume is used beside the original.
fn creates(chance: &mut Chance) {
    let mut volume = volumes::any_sound(chance);
    let mut lent = lend(&volume);
    for _ in 0..chance.within(1, 5) {
        let held = layout(&lent.table).expect("a sound table");
        let sizes: Vec<usize> = held.free.iter().map(|run| run.size).collect();
        let longest = sizes.iter().copied().max().unwrap_or(0);
        let count = match chance.below(6) {
            0 => chance.pick(&[0, 1, longest + 1, blocks(&held.free), usize::MAX]),
            1 if longest > 0 => longest,
            2 if longest > 0 => chance.pick(&sizes),
            _ => chance.within(1, longest.max(1)),
        };
        let (number, first) = same_create(&mut lent, count);
        if number == 0 {
            asked(&held, first, count, &lent.table);
        } else {
            assert!(count == 0 || longest < count || number == 20);
        }
    }
    (volume.table, volume.work) = (lent.table, lent.work);
    let mut session = Session::new(volume);
    session.compare_lists();
    for _ in 0..chance.within(1, 4) {
        let call = any_call(chance, &mut session.lent);
        session.run(&call);
    }
    session.compare_lists();
}

/// A table with a few words changed, a length that does not fit, or a short work list.
fn any_create(chance: &mut Chance) {
    let mut volume = volumes::any_sound(chance);
    let n = volume.table.len() / 8 - 1;
    match chance.below(7) {
        0 => volume.table.truncate(chance.pick(&[0, 7, 8, 9, 15, 8 * n, 8 * n + 1])),
        1 => volume.work.truncate(chance.pick(&[0, 1, n / 2, n - 1])),
        2 => volume.data.truncate(chance.below(volume.data.len())),
        3 | 4 => {
            volume.block_len = chance.pick(&[1, 8, 511, 513]);
            volume.data.resize(n * volume.block_len, 7);
        }
        5 => {
            volume.block_len = chance.pick(&[0, 65_537, usize::MAX]);
            volume.data.truncate(if volume.block_len == 0 { 0 } else { usize::MAX });
        }
        _ => {
            for _ in 0..chance.within(1, 3) {
                let at = 4 * chance.below(volume.table.len() / 4);
                let flag = chance.pick(&[0, 0x8000_0000]);
                put_word(&mut volume.table, at, flag | chance.within(0, n + 2) as u32);
            }
        }
    }
    same_create(&mut lend(&volume), chance.pick(&[0, 1, 2, n]));
}

/// One of each.
pub fn run(chance: &mut Chance) {
    sound(chance);
    any(chance);
    creates(chance);
    any_create(chance);
}

/// The largest volume, of which every second block is free, in falling order, and one node of two at the end of the chain; one block more is refused.
pub fn large() {
    for n in [1_000_000, 1_000_001] {
        let run = |start| Run { start, size: 1 };
        let mut free: Chain = (2..n).filter(|block| block % 2 == 0).rev().map(run).collect();
        free.push(Run { start: 0, size: 2 });
        let files = (2..n).filter(|block| block % 2 == 1).map(|block| vec![run(block)]).collect();
        let mut table = vec![0xA5; 8 * (n + 1)];
        lay_out(&mut table, &Layout { free, files });
        let mut lent = KioskCreate { table, data: vec![0; 512 * n], block_len: 512, work: vec![9; n] };
        assert_eq!(same_create(&mut lent, 2), (if n > 1_000_000 { 2 } else { 0 }, 0));
    }
}
