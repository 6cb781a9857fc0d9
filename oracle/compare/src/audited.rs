//! The audit of both layers: the rules and the library on volumes whose records and chains disagree in every way, and on damaged ones.

use crate::chance::Chance;
use crate::check::short;
use crate::{trees, volumes};
use port::{Answered, Audit};
use rules::blocks::{blocks, lay_out, Layout, Run};
use rules::entries::{hash, key};
use rules::put_word;
use rules::tree::FourMut;
use std::sync::atomic::{AtomicU64, Ordering};

/// How often each number was answered, and how often each kind was found; at 0 how often there was nothing to find.
static ANSWERS: [AtomicU64; 10] = [const { AtomicU64::new(0) }; 10];
static KINDS: [AtomicU64; 5] = [const { AtomicU64::new(0) }; 5];

/// The audits that gave each of 0, 1, 2, 3, 4, 8 and 9, which are all its numbers; those without a finding, and the findings of kinds 1 to 4.
pub fn met() -> (Vec<u64>, Vec<u64>) {
    let read = |times: &AtomicU64| times.load(Ordering::Relaxed);
    ([0, 1, 2, 3, 4, 8, 9].map(|number| read(&ANSWERS[number])).to_vec(), KINDS.iter().map(read).collect())
}

/// Both answer the same and leave the same in everything that is lent: the answer.
fn same(lent: &mut Audit) -> Answered {
    let before = lent.clone();
    let (mut library, mut inner) = (lent.clone(), lent.clone());
    let stated = lent.stated();
    let answered = library.library();
    assert!(
        answered == stated && library == *lent,
        "the library differs\nlent {}\nrules {stated:?} {:?} {:?}\nlibrary {answered:?} {:?} {:?}",
        short(&before), lent.list, lent.work, library.list, library.work
    );
    assert!(stated.number == 0 || lent.list == before.list, "the rules changed the list and refused");
    if matches!(stated.number, 0 | 8) {
        let answered = inner.inner();
        assert!(answered == stated && inner == *lent, "the inner call differs\nlent {}\nrules {stated:?}\ninner {answered:?}", short(&before));
    }
    ANSWERS[stated.number as usize].fetch_add(1, Ordering::Relaxed);
    if stated.number == 0 {
        KINDS[0].fetch_add(u64::from(stated.fields[0] == 0), Ordering::Relaxed);
        for finding in lent.list.chunks(2).take(stated.fields[0] as usize) {
            KINDS[finding[0] as usize].fetch_add(1, Ordering::Relaxed);
        }
    }
    stated
}

// Volumes.

/// Writes a file's record: the block at byte 28 of its entry, the size at byte 32.
fn put_record(file_table: &mut [u8], inode: usize, block: u32, size: u64) {
    put_word(file_table, 48 * inode + 28, block);
    put_word(file_table, 48 * inode + 32, size as u32);
    put_word(file_table, 48 * inode + 36, (size >> 32) as u32);
}

/// A file's first block, most often; else the free chain's, or a number that begins no chain.
fn any_block(chance: &mut Chance, held: &Layout, n: usize) -> u32 {
    let firsts: Vec<u32> = held.files.iter().map(|chain| chain[0].start as u32).collect();
    match chance.below(8) {
        0 => chance.within(0, n + 2) as u32,
        1 => chance.pick(&[0, 1 << 16, 1 << 31, u32::MAX, n as u32, n as u32 - 1]),
        2 if !held.free.is_empty() => held.free[0].start as u32,
        3 if !firsts.is_empty() => chance.pick(&firsts) | 1 << 31,
        _ if !firsts.is_empty() => chance.pick(&firsts),
        _ => chance.below(n) as u32,
    }
}

/// A size about what the blocks from there hold, far beyond it, or none.
fn any_size(chance: &mut Chance, held: &Layout, block: u32, block_len: usize) -> u64 {
    let chain = held.files.iter().find(|chain| chain[0].start == block as usize);
    let whole = chain.map_or(1, |chain| blocks(chain) * block_len) as u64;
    match chance.below(9) {
        0 | 1 => 0,
        2 => whole + 1,
        3 => whole - 1,
        4 => chance.pick(&[1, u64::from(u32::MAX), 1 << 32, (1 << 32) + whole, 1 << 63, u64::MAX - whole, u64::MAX]),
        5 => chance.within(0, 2 * whole as usize) as u64,
        _ => whole,
    }
}

/// A record for every place of the file table, of removed files and of those never used too.
fn any_records(chance: &mut Chance, held: &Layout, lent: &mut Audit) {
    let n = lent.table.len() / 8 - 1;
    for inode in 1..lent.file_table.len() / 48 {
        let block = any_block(chance, held, n);
        let size = any_size(chance, held, block, lent.block_len);
        put_record(&mut lent.file_table, inode, block, size);
    }
}

/// A chain for each inode below the count as long as there are some, filled or a byte short of it; the others are empty and say any block. Nothing is found
/// where all these inodes are live and every chain is dealt.
fn fitting_records(chance: &mut Chance, held: &Layout, lent: &mut Audit) {
    let mut chains = held.files.iter();
    let count = rules::word(&lent.file_table, 0) as usize;
    for inode in 1..lent.file_table.len() / 48 {
        let (block, size) = match chains.next().filter(|_| inode < count) {
            Some(chain) => (chain[0].start as u32, (blocks(chain) * lent.block_len - chance.below(2)) as u64),
            None => (chance.next() as u32, 0),
        };
        put_record(&mut lent.file_table, inode, block, size);
    }
}

/// A sound volume over junk, whose records disagree with its chains or fit them. The list has a place for every finding that there can be.
pub fn any_volume(chance: &mut Chance) -> Audit {
    let n = volumes::any_size(chance);
    let held = volumes::any_layout(chance, n);
    let mut table = chance.bytes(8 * (n + 1));
    lay_out(&mut table, &held);
    let block_len = if n <= 4 && chance.one_in(8) { 65_536 } else { chance.pick(&[1, 2, 3, 512]) };
    let tree = trees::any_sound(chance);
    let rooms = tree.dir_table.len() / 40 + tree.file_table.len() / 48;
    let (spare, places) = (chance.below(3), 2 * (n + 2 * rooms));
    let mut lent = Audit {
        table,
        data: chance.bytes(n * block_len),
        block_len,
        dir_hash: tree.dir_hash,
        dir_table: tree.dir_table,
        file_hash: tree.file_hash,
        file_table: tree.file_table,
        work: chance.words(n + rooms + spare),
        list: chance.words(places),
    };
    if chance.one_in(4) {
        fitting_records(chance, &held, &mut lent);
    } else {
        any_records(chance, &held, &mut lent);
    }
    lent
}

/// A sound volume with lists of every length about what is needed, and a work list that is one place short.
fn sound(chance: &mut Chance) {
    let lent = any_volume(chance);
    let all = same(&mut lent.clone());
    assert_eq!(all.number, 0);
    let needed = 2 * all.fields[0] as usize;
    for places in [0, 1, needed / 2, needed.saturating_sub(2), needed.saturating_sub(1), needed, needed + 1] {
        let mut lent = Audit { list: chance.words(places), ..lent.clone() };
        assert_eq!(same(&mut lent).number, if places < needed { 8 } else { 0 });
    }
    let rooms = lent.dir_table.len() / 40 + lent.file_table.len() / 48;
    let mut lent = Audit { work: chance.words(lent.table.len() / 8 - 2 + rooms), ..lent };
    assert_eq!(same(&mut lent).number, 3);
}

// Damage.

fn part(lent: &mut Audit, which: usize) -> &mut Vec<u8> {
    match which {
        0 => &mut lent.table,
        1 => &mut lent.dir_hash,
        2 => &mut lent.dir_table,
        3 => &mut lent.file_hash,
        4 => &mut lent.file_table,
        _ => &mut lent.data,
    }
}

/// Another length: cut off, or more than a volume may have.
fn another_length(chance: &mut Chance, lent: &mut Audit) {
    let which = chance.below(6);
    let part = part(lent, which);
    let len = part.len();
    let many = [8 * 1_000_002, 4 * 65_537, 40 * 65_537, 4 * 65_537, 48 * 65_537, 0][which];
    let other = if chance.one_in(20) { many } else { chance.pick(&[0, 3, 4, 7, 8, 9, 16, 40, 48, len / 2, len.saturating_sub(1), len + 1, len + 8]) };
    part.resize(other, 0x5A);
}

/// Words of a table in another way.
fn another_word(chance: &mut Chance, lent: &mut Audit) {
    let which = chance.pick(&[0, 0, 1, 2, 3, 4]);
    let part = part(lent, which);
    if part.len() < 4 {
        return;
    }
    let at = 4 * chance.below(part.len() / 4);
    let flag = chance.pick(&[0, 0, 0x8000_0000]);
    let index = chance.within(0, part.len() / 8 + 2) as u32;
    put_word(part, at, flag | index);
}

/// One to three things are wrong, of one layer or of both.
fn any(chance: &mut Chance) {
    let mut lent = any_volume(chance);
    for _ in 0..chance.within(1, 3) {
        match chance.below(6) {
            0 => another_length(chance, &mut lent),
            1 => lent.work.truncate(chance.below(lent.work.len() + 1)),
            2 => lent.block_len = chance.pick(&[0, 1, 512, 65_536, 65_537, 1 << 63, usize::MAX]),
            3 => lent.list.truncate(chance.below(lent.list.len() + 1)),
            _ => another_word(chance, &mut lent),
        }
    }
    same(&mut lent);
}

/// One of each.
pub fn run(chance: &mut Chance) {
    sound(chance);
    any(chance);
}

// The largest.

/// Tables with a root and as many files in it as there is room for.
fn crowded() -> (Vec<u8>, Vec<u8>, Vec<u8>, Vec<u8>) {
    let room = 65_536;
    let (mut dir_hash, mut dir_table) = (vec![0; 4], vec![0; 40 * 2]);
    let (mut file_hash, mut file_table) = (vec![0; 4 * room], vec![0; 48 * room]);
    let mut four = FourMut {
        dir_hash: &mut dir_hash,
        dir_table: &mut dir_table,
        file_hash: &mut file_hash,
        file_table: &mut file_table,
    };
    rules::tree::format(&mut four, 2, room).unwrap();
    put_word(&mut file_table, 0, room as u32);
    put_word(&mut dir_table, 40 + 28, 1);
    for inode in 1..room {
        let mut name = [0; 16];
        put_word(&mut name, 0, inode as u32);
        let key = key(1, &name);
        let bucket = 4 * (hash(&key) as usize % room);
        file_table[48 * inode..48 * inode + 20].copy_from_slice(&key);
        put_word(&mut file_table, 48 * inode + 20, if inode + 1 < room { inode as u32 + 1 } else { 0 });
        let first = rules::word(&file_hash, bucket);
        put_word(&mut file_table, 48 * inode + 44, first);
        put_word(&mut file_hash, bucket, inode as u32);
    }
    (dir_hash, dir_table, file_hash, file_table)
}

/// The largest volume, with findings of every kind, and one block more.
pub fn large() {
    const CHAIN: usize = 14;
    for n in [1_000_000, 1_000_001] {
        let run = |k: usize| Run { start: CHAIN * k, size: CHAIN };
        let chains = 70_000;
        let free = vec![Run { start: CHAIN * chains, size: n - CHAIN * chains }];
        let mut table = vec![0xA5; 8 * (n + 1)];
        lay_out(&mut table, &Layout { free, files: (0..chains).map(|k| vec![run(k)]).collect() });
        let (dir_hash, dir_table, file_hash, mut file_table) = crowded();
        for inode in 1..65_536 {
            let own = CHAIN * (inode - usize::from(inode % 7 == 0));
            let block = own + usize::from(inode % 13 == 0);
            let size = if inode % 17 == 0 { 0 } else { CHAIN + usize::from(inode % 11 == 0) };
            put_record(&mut file_table, inode, block as u32, size as u64);
        }
        let (work, list) = (vec![9; n + 65_538], vec![7; 200_000]);
        let data = vec![0; n];
        let mut lent = Audit { table, data, block_len: 1, dir_hash, dir_table, file_hash, file_table, work, list };
        let answered = same(&mut lent);
        assert_eq!(answered.number, if n > 1_000_000 { 2 } else { 0 });
        assert_eq!(answered.fields[0] > 10_000, n == 1_000_000);
    }
}
