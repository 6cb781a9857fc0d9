//! The checks of RULES 8, on the statement of the rules.

use rules::answer::Answer::*;
use rules::audit::{audit, Both};
use rules::blocks::{self, lay_out, Layout, Run, Tested};
use rules::entries::{hash, key, Kind};
use rules::plan;
use rules::opens::{Packed, WRITER};
use rules::tree::{self, Found, Four, FourMut, Stat};
use rules::word;

const F: u32 = 0x8000_0000;

const LEN: usize = 512;

/// A volume with a work list.
struct Volume {
    table: Vec<u8>,
    data: Vec<u8>,
    work: Vec<u32>,
}

impl Volume {
    fn formatted(n: usize) -> Volume {
        let mut table = vec![0; 8 * (n + 1)];
        blocks::format(&mut table).unwrap();
        Volume { table, data: vec![0; n * LEN], work: vec![7; n] }
    }
    fn entries(&self) -> Vec<(u32, u32)> {
        let at = |e: usize| (word(&self.table, e * 8), word(&self.table, e * 8 + 4));
        (0..self.table.len() / 8).map(at).collect()
    }
    fn create(&mut self, count: usize) -> Result<usize, rules::Answer> {
        blocks::create(&mut self.table, &self.data, LEN, &mut self.work, count)
    }
    fn resize(&mut self, first: usize, count: usize) -> Result<(), rules::Answer> {
        blocks::resize(&mut self.table, &self.data, LEN, &mut self.work, first, count)
    }
    fn delete(&mut self, first: usize) -> Result<(), rules::Answer> {
        blocks::delete(&mut self.table, &self.data, LEN, &mut self.work, first)
    }
    fn list(&mut self, first: usize) -> Vec<u32> {
        let mut list = vec![9; 8];
        let count =
            blocks::open_list(&self.table, &self.data, LEN, &mut self.work, first, &mut list);
        list.truncate(count.unwrap());
        list
    }
    fn read(&mut self, first: usize, pos: usize, len: usize) -> Result<(), rules::Answer> {
        let mut buf = vec![0; len];
        blocks::read(&self.table, &self.data, LEN, &mut self.work, first, pos, &mut buf)
    }
}

#[test]
fn block_table() {
    let mut v = Volume::formatted(4);
    assert_eq!(v.entries(), [(0, 1), (F, F), (F | 1, 4), (0, 0), (F | 1, 4)]);
    assert_eq!(v.create(1), Ok(0));
    assert_eq!(v.entries(), [(0, 2), (F, 0), (F, F), (F | 2, 4), (F | 2, 4)]);
    assert_eq!(v.create(2), Ok(1));
    assert_eq!(v.entries(), [(0, 4), (F, 0), (F, F), (F | 2, 3), (F, 0)]);
    assert_eq!(v.delete(0), Ok(()));
    assert_eq!(v.entries()[0], (0, 1));
    assert_eq!(v.entries()[1], (F, 4));
    assert_eq!(v.entries()[4], (1, 0));
    let tested = blocks::test(&v.table, &mut v.work);
    assert_eq!(tested, Ok(Tested { free: 2, files: 1 }));
    assert_eq!(v.work, [0, 0, 0, 0]);
    assert_eq!(v.create(2), Ok(0));
    assert_eq!(v.list(0), [0, 3]);
    assert_eq!(v.entries()[0], (0, 0));
    assert_eq!(v.resize(1, 1), Ok(()));
    assert_eq!(v.entries(), [(0, 3), (F, 4), (F, 0), (F, 0), (1, 0)]);
    assert_eq!(v.resize(1, 3), Err(NoSpace));
    assert_eq!(v.read(1, LEN, 0), Ok(()));
    assert_eq!(v.read(1, LEN - 1, 1), Ok(()));
    assert_eq!(v.read(1, LEN, 1), Err(OutOfBound));
    assert_eq!(v.read(1, usize::MAX, 1), Err(OutOfBound));
}

#[test]
fn small_block_tables() {
    assert_eq!(Volume::formatted(1).entries(), [(0, 1), (F, 0)]);
    assert_eq!(blocks::format(&mut []), Err(SizeMismatch));
    assert_eq!(blocks::format(&mut [0; 7]), Err(SizeMismatch));
    assert_eq!(blocks::format(&mut [0; 8]), Err(InvalidValue));
    for n in 1..6 {
        assert_eq!(Volume::formatted(n).create(n), Ok(0));
        assert_eq!(Volume::formatted(n).create(n + 1), Err(NoSpace));
        assert_eq!(Volume::formatted(n).create(0), Err(InvalidValue));
    }
    // The free chain's first block is no file; nor is a block past the end.
    assert_eq!(Volume::formatted(2).delete(0), Err(NotAFile));
    assert_eq!(Volume::formatted(2).delete(2), Err(NotAFile));
}

#[test]
fn a_ring_is_not_sound() {
    let mut v = Volume::formatted(4);
    for (e, (a, b)) in [(0, 0), (2, 2), (1, 1), (F, 4), (3, 0)].iter().enumerate() {
        rules::put_word(&mut v.table, e * 8, *a);
        rules::put_word(&mut v.table, e * 8 + 4, *b);
    }
    assert_eq!(blocks::test(&v.table, &mut v.work), Err(BrokenFat));
}

/// The rules one by one, on the volume of 4 blocks with a file of 1 block at 0 and the other three free.
#[test]
fn where_it_is_broken() {
    let broken = |changes: &[(usize, u32, u32)]| {
        let mut v = Volume::formatted(4);
        v.create(1).unwrap();
        for (e, a, b) in changes {
            rules::put_word(&mut v.table, e * 8, *a);
            rules::put_word(&mut v.table, e * 8 + 4, *b);
        }
        rules::fault::fault(&v.table).map_or((0, 0), |f| (f.entry, f.rule))
    };
    assert_eq!(broken(&[]), (0, 0));
    assert_eq!(broken(&[(1, 0, 0)]), (1, 1));
    assert_eq!(broken(&[(1, F + 1, 0)]), (1, 1));
    assert_eq!(broken(&[(2, F, 0), (3, F, 0), (4, F, F)]), (4, 2));
    assert_eq!(broken(&[(3, 2, 4)]), (3, 3));
    assert_eq!(broken(&[(3, F + 2, F + 4)]), (3, 3));
    assert_eq!(broken(&[(3, F + 2, 2)]), (3, 3));
    assert_eq!(broken(&[(3, F + 1, 5)]), (3, 3), "the form comes before the end");
    assert_eq!(broken(&[(3, F + 2, 5)]), (3, 4));
    assert_eq!(broken(&[(4, F + 2, 3)]), (4, 5));
    assert_eq!(broken(&[(3, F + 2, 3)]), (4, 1), "a node of 2, and no node behind it");
    assert_eq!(broken(&[(0, 1, 2)]), (0, 6));
    assert_eq!(broken(&[(0, 0, F + 2)]), (0, 6));
    assert_eq!(broken(&[(0, 0, 3)]), (0, 6), "no node starts there");
    assert_eq!(broken(&[(0, 1, 2), (4, 0, 0)]), (4, 5), "the walk comes before the head");
    assert_eq!(broken(&[(1, F, 2)]), (1, 7), "block 1 does not name block 0 back");
    assert_eq!(broken(&[(1, F, 9)]), (1, 7));
    assert_eq!(broken(&[(1, 1, 1), (0, 0, 2)]), (1, 7), "a ring of one");
    assert_eq!(broken(&[(1, 2, 2), (2, 1, F + 1), (0, 0, 0)]), (1, 7), "a ring of two whose links all agree");
    assert_eq!(broken(&[(2, F, F + 1), (0, 0, 2)]), (2, 7), "the node that names, not the one that is named");
}

fn name_a() -> [u8; 16] {
    let mut name = [0; 16];
    name[0] = 0x61;
    name
}

#[test]
fn hashes() {
    assert_eq!(hash(&key(0, &[0; 16])), 0xC091_A2B3);
    assert_eq!(0xC091_A2B3u32 % 5, 3);
    assert_eq!(0xC091_A2B3u32 % 3, 0);
    assert_eq!(hash(&key(1, &name_a())), 0xF091_A2BF);
    assert_eq!(0xF091_A2BFu32 % 5, 3);
}

/// Five directory buckets, one file bucket.
struct Tables {
    dir_hash: Vec<u8>,
    dir_table: Vec<u8>,
    file_hash: Vec<u8>,
    file_table: Vec<u8>,
    work: Vec<u32>,
    opens: Packed,
}

impl Tables {
    fn formatted(dir_max: usize, file_max: usize) -> Tables {
        let mut t = Tables {
            dir_hash: vec![9; 20],
            dir_table: vec![9; 40 * dir_max],
            file_hash: vec![9; 4],
            file_table: vec![9; 48 * file_max],
            work: vec![9; dir_max + file_max + 1],
            opens: Packed::none(2 * dir_max.max(file_max)),
        };
        tree::format(&mut t.lent().0, dir_max, file_max).unwrap();
        t
    }
    fn lent(&mut self) -> (FourMut<'_>, &mut [u32], &mut Packed) {
        let four = FourMut {
            dir_hash: &mut self.dir_hash,
            dir_table: &mut self.dir_table,
            file_hash: &mut self.file_hash,
            file_table: &mut self.file_table,
        };
        (four, &mut self.work, &mut self.opens)
    }
    fn seen(&mut self) -> (Four<'_>, &mut [u32]) {
        let four = Four {
            dir_hash: &self.dir_hash,
            dir_table: &self.dir_table,
            file_hash: &self.file_hash,
            file_table: &self.file_table,
        };
        (four, &mut self.work)
    }
    fn lookup(&mut self, parent: u32, name: [u8; 16]) -> Found {
        let (four, work) = self.seen();
        tree::lookup(four, work, Kind::Dir, parent, &name)
    }
}

#[test]
fn entry_tables() {
    let mut t = Tables::formatted(4, 1);
    let hash: Vec<u32> = (0..5).map(|i| word(&t.dir_hash, i * 4)).collect();
    assert_eq!(hash, [0, 0, 0, 1, 0]);
    assert_eq!((word(&t.dir_table, 0), word(&t.dir_table, 4)), (2, 4));
    assert_eq!(t.dir_table[8..80], [0; 72]);
    assert_eq!(t.dir_table[80..], [9; 80]);
    let (mut four, work, opens) = t.lent();
    let made = tree::make(&mut four, work, opens, Kind::Dir, 1, &name_a(), &[0; 4]);
    assert_eq!(made, Ok(2));
    assert_eq!(word(&t.dir_hash, 12), 2);
    assert_eq!(word(&t.dir_table, 2 * 40 + 36), 1);
    assert_eq!(word(&t.dir_table, 40 + 24), 2);
    assert_eq!(t.work, [0, 0, 0, 0, 0, 9]);
    assert_eq!(t.opens.record(2), WRITER);
    assert_eq!(t.lookup(1, name_a()), Found { answer: Done, inode: 2, compared: 1 });
    assert_eq!(t.lookup(0, [0; 16]), Found { answer: Done, inode: 1, compared: 2 });
    let (mut four, work, opens) = t.lent();
    let made = tree::make(&mut four, work, opens, Kind::File, 1, &name_a(), &[0; 20]);
    assert_eq!(made, Err(NoSpace));
    let (four, work) = t.seen();
    let stat = Stat { dir_total: 3, dir_free: 1, file_total: 0, file_free: 0 };
    assert_eq!(tree::stat(four, work), Ok(stat));
}

#[test]
fn tree_refusals() {
    let mut t = Tables::formatted(6, 4);
    let (mut four, work, opens) = t.lent();
    let f = &mut four;
    let dir = Kind::Dir;
    assert_eq!(tree::make(f, work, opens, dir, 1, &[1; 16], &[0; 4]), Ok(2));
    assert_eq!(tree::make(f, work, opens, dir, 2, &[2; 16], &[0; 4]), Ok(3));
    assert_eq!(tree::make(f, work, opens, dir, 1, &[3; 16], &[0; 4]), Ok(4));
    assert_eq!(tree::make(f, work, opens, dir, 1, &[3; 16], &[0; 4]), Err(AlreadyExist));
    assert_eq!(tree::make(f, work, opens, dir, 5, &[3; 16], &[0; 4]), Err(NotFound));
    assert_eq!(tree::rename(f, work, opens, dir, 2, 3, &[1; 16]), Err(IntoItself));
    assert_eq!(tree::rename(f, work, opens, dir, 2, 2, &[1; 16]), Err(IntoItself));
    assert_eq!(tree::rename(f, work, opens, dir, 4, 1, &[1; 16]), Err(AlreadyExist));
    assert_eq!(tree::rename(f, work, opens, dir, 4, 1, &[3; 16]), Ok(()));
    assert_eq!(tree::rename(f, work, opens, dir, 1, 1, &[3; 16]), Err(NotOpen));
    assert_eq!(tree::delete(f, work, opens, dir, 2), Err(NotEmpty));
    assert_eq!(tree::delete(f, work, opens, dir, 1), Err(NotOpen));
    assert_eq!(tree::open(f.four(), work, opens, dir, 1, 0), Ok(()));
    assert_eq!(tree::delete(f, work, opens, dir, 1), Err(NotOpen));
    assert_eq!(tree::rename(f, work, opens, dir, 1, 1, &[3; 16]), Err(NotOpen));
    assert_eq!(tree::open(f.four(), work, opens, dir, 1, 1), Ok(()));
    assert_eq!(tree::open(f.four(), work, opens, dir, 1, 1), Err(Busy));
    assert_eq!(tree::delete(f, work, opens, dir, 1), Err(Busy));
    assert_eq!(tree::close(f.four(), work, opens, dir, 1, 0), Ok(()));
    assert_eq!(tree::delete(f, work, opens, dir, 1), Err(DeletingRoot));
    assert_eq!(tree::rename(f, work, opens, dir, 1, 9, &[3; 16]), Err(DeletingRoot));
    assert_eq!(tree::open(f.four(), work, opens, dir, 3, 0), Ok(()));
    assert_eq!(tree::delete(f, work, opens, dir, 3), Err(Busy));
    assert_eq!(tree::rename(f, work, opens, dir, 3, 2, &[4; 16]), Ok(()));
    assert_eq!(tree::close(f.four(), work, opens, dir, 3, 0), Ok(()));
    assert_eq!(tree::close(f.four(), work, opens, dir, 3, 2), Err(InvalidValue));
    assert_eq!(tree::delete(f, work, opens, dir, 3), Ok(()));
    assert_eq!(tree::close(f.four(), work, opens, dir, 3, 1), Err(NotFound));
    assert_eq!(tree::rename(f, work, opens, dir, 2, 4, &[1; 16]), Ok(()));
    assert_eq!(tree::make(f, work, opens, dir, 2, &[2; 16], &[0; 4]), Ok(3));
    let mut list = [8; 4];
    assert_eq!(tree::list(f.four(), work, dir, 1, &mut list), Ok(1));
    assert_eq!(list, [4, 8, 8, 8]);
    assert_eq!(tree::list(f.four(), work, dir, 1, &mut []), Err(ListTooShort));
    opens.put(3, WRITER + 65_534);
    assert_eq!(tree::open(f.four(), work, opens, dir, 3, 0), Err(TooManyOpens));
    assert_eq!(tree::open(f.four(), work, opens, dir, 3, 1), Err(TooManyOpens));
    assert_eq!(tree::close(f.four(), work, opens, dir, 3, 0), Ok(()));
    assert_eq!(tree::open(f.four(), work, opens, dir, 3, 1), Err(Busy));
    assert_eq!(tree::close(f.four(), work, opens, dir, 1, 1), Ok(()));
    assert_eq!(tree::close(f.four(), work, opens, dir, 1, 1), Err(NotOpen));
    assert_eq!(tree::test(f.four(), work), Ok(()));
}

/// The carried bytes of a file of that block and size.
fn record(block: u32, size: u64) -> [u8; 20] {
    let mut carried = [9; 20];
    carried[4..8].copy_from_slice(&block.to_le_bytes());
    carried[8..16].copy_from_slice(&size.to_le_bytes());
    carried
}

/// The worked example of `crates/audit/proofs/Examples.antt`, in bytes: six blocks, the chains of files from 0, 2 and 5, and six files, of which 3 is removed.
#[test]
fn audits() {
    let run = |start, size| Run { start, size };
    let files = vec![vec![run(0, 1)], vec![run(2, 2)], vec![run(5, 1)]];
    let mut table = vec![9; 8 * 7];
    lay_out(&mut table, &Layout { free: vec![run(1, 1), run(4, 1)], files });
    let mut t = Tables::formatted(2, 7);
    let (mut four, work, opens) = t.lent();
    let records = [(0, 512), (1, 1), (0, 9), (0, 513), (2, 0), (5, 1)];
    for (inode, (block, size)) in (1..).zip(records) {
        let made = tree::make(&mut four, work, opens, Kind::File, 1, &[inode as u8; 16], &record(block, size));
        assert_eq!(made, Ok(inode));
    }
    assert_eq!(tree::delete(&mut four, work, opens, Kind::File, 3), Ok(()));
    let data = vec![0; 6 * LEN];
    let found = |four: Four, places: usize| {
        let (mut work, mut list) = (vec![8; 6 + 2 + 7 + 1], vec![8; places]);
        let count = audit(Both { table: &table, data: &data, block_len: LEN, four }, &mut work, &mut list);
        assert_eq!((&work[..15], work[15]), (&[0; 15][..], 8));
        (count, list)
    };
    assert_eq!(found(four.four(), 9), (Ok(4), vec![1, 2, 2, 4, 3, 4, 4, 2, 8]));
    assert_eq!(found(four.four(), 7), (Err(ListTooShort), vec![8; 7]));
    // Without inodes 2 and 4, and with a size for 5, nothing is found.
    assert_eq!(tree::delete(&mut four, work, opens, Kind::File, 2), Ok(()));
    assert_eq!(tree::delete(&mut four, work, opens, Kind::File, 4), Ok(()));
    assert_eq!(tree::set_carried(&mut four, work, Kind::File, 5, &record(2, 1024)), Ok(()));
    assert_eq!(found(four.four(), 1), (Ok(0), vec![8]));
    assert_eq!(tree::set_carried(&mut four, work, Kind::File, 5, &record(2, (1 << 32) + 1)), Ok(()));
    assert_eq!(found(four.four(), 2), (Ok(1), vec![3, 5]));
}

/// The two examples of RULES 4.12.
#[test]
fn plans() {
    let run = |start, size| Run { start, size };
    let mut v = Volume::formatted(5);
    lay_out(&mut v.table, &Layout { free: vec![run(3, 1), run(1, 2)], files: vec![vec![run(4, 1), run(0, 1)]] });
    v.data[4 * LEN..].fill(7);
    v.data[..LEN].fill(9);
    let mut list = vec![5; 5];
    assert_eq!(plan::find(&v.table, &v.data, LEN, &mut v.work, 4, &mut list), Ok(2));
    assert_eq!(list, [4, 1, 0, 2, 5]);
    assert_eq!(plan::check(&v.table, &v.data, LEN, &mut v.work, 4, &list), Err(InvalidValue));
    list.pop();
    assert_eq!(plan::check(&v.table, &v.data, LEN, &mut v.work, 4, &list), Ok(()));
    assert_eq!(plan::apply(&mut v.table, &mut v.data, LEN, &mut v.work, 4, &list), Ok(1));
    let after = Layout { free: vec![run(4, 1), run(0, 1), run(3, 1)], files: vec![vec![run(1, 2)]] };
    assert_eq!(blocks::layout(&v.table), Some(after));
    assert!(v.data[LEN..2 * LEN].iter().all(|byte| *byte == 7) && v.data[2 * LEN..3 * LEN].iter().all(|byte| *byte == 9));

    let mut v = Volume::formatted(10);
    let file = vec![run(7, 1), run(9, 1)];
    lay_out(&mut v.table, &Layout { free: vec![run(8, 1), run(0, 7)], files: vec![file] });
    assert_eq!(plan::apply(&mut v.table, &mut v.data, LEN, &mut v.work, 7, &[7, 2, 9, 3]), Ok(2));
    let after = Layout { free: vec![run(7, 1), run(9, 1), run(8, 1), run(0, 2), run(4, 3)], files: vec![vec![run(2, 2)]] };
    assert_eq!(blocks::layout(&v.table), Some(after));
    assert_eq!(plan::find(&v.table, &v.data, LEN, &mut v.work, 8, &mut []), Err(NotAFile));
    assert_eq!(v.resize(2, 6), Ok(()));
    assert_eq!(plan::find(&v.table, &v.data, LEN, &mut v.work, 2, &mut []), Err(NoSpace));
    assert_eq!(v.resize(2, 2), Ok(()));
    assert_eq!(plan::find(&v.table, &v.data, LEN, &mut v.work, 2, &mut [0; 3]), Err(ListTooShort));
}
