//! Rounds of calls through the modules' own interface, timed. The same text is compiled with the original's modules and with ours.

use crate::error::Error;
use crate::fat::{Fat, FatFile};
use crate::fs_meta::{DirMeta, FsMeta};
use crate::random_access_file::RandomAccessFile;
use crate::record::FileRecord;
use crate::save_ext_common::{SaveExtDir, SaveExtKey};
use std::cell::RefCell;
use std::hint::black_box;
use std::rc::Rc;
use std::time::Instant;

/// A file in memory, as plain as can be.
struct Bytes(RefCell<Vec<u8>>);

impl RandomAccessFile for Bytes {
    fn read(&self, pos: usize, buf: &mut [u8]) -> Result<(), Error> {
        buf.copy_from_slice(&self.0.borrow()[pos..pos + buf.len()]);
        Ok(())
    }
    fn write(&self, pos: usize, buf: &[u8]) -> Result<(), Error> {
        self.0.borrow_mut()[pos..pos + buf.len()].copy_from_slice(buf);
        Ok(())
    }
    fn len(&self) -> usize {
        self.0.borrow().len()
    }
    fn commit(&self) -> Result<(), Error> {
        Ok(())
    }
}

fn bytes(len: usize) -> Rc<Bytes> {
    Rc::new(Bytes(RefCell::new(vec![0; len])))
}

/// The nanoseconds of one of so many calls.
fn timed<T>(calls: usize, run: impl FnOnce() -> T) -> (f64, T) {
    let start = Instant::now();
    let done = black_box(run());
    (start.elapsed().as_nanos() as f64 / calls as f64, done)
}

/// How often each file is written and read in a round.
const TIMES: usize = 4;

/// A volume with files there, every other of them given back; and what a round makes, so many files of so many blocks.
#[derive(Clone, Copy)]
pub struct BlockShape {
    pub blocks: usize,
    pub block_len: usize,
    pub there: usize,
    pub there_blocks: usize,
    pub worn: bool,
    pub files: usize,
    pub file_blocks: usize,
}

pub const BLOCK_CALLS: [&str; 7] = ["create", "resize (grow)", "resize (shrink)", "open", "write", "read", "delete"];

pub struct Blocks {
    fat: Rc<Fat>,
    shape: BlockShape,
}

impl Blocks {
    pub fn new(shape: BlockShape) -> Blocks {
        let (table, data) = (bytes((shape.blocks + 1) * 8), bytes(shape.blocks * shape.block_len));
        Fat::format(table.as_ref()).unwrap();
        let fat = Fat::new(table, data, shape.block_len).unwrap();
        let files: Vec<FatFile> =
            (0..shape.there).map(|_| FatFile::create(fat.clone(), shape.there_blocks).unwrap().0).collect();
        for (i, file) in files.into_iter().enumerate() {
            if shape.worn && i % 2 == 1 {
                file.delete().unwrap();
            }
        }
        Blocks { fat, shape }
    }

    /// One round: the volume is then as before, but for the order of its free blocks.
    pub fn round(&self) -> [f64; 7] {
        let BlockShape { files, file_blocks, block_len, .. } = self.shape;
        let create = || (0..files).map(|_| FatFile::create(self.fat.clone(), file_blocks).unwrap()).collect();
        let (create, made): (f64, Vec<(FatFile, usize)>) = timed(files, create);
        let (mut handles, firsts): (Vec<FatFile>, Vec<usize>) = made.into_iter().unzip();
        let mut resized = |count: usize| timed(files, || handles.iter_mut().for_each(|f| f.resize(count).unwrap())).0;
        let (grow, shrink) = (resized(file_blocks * 2), resized(file_blocks));
        let reopen = || firsts.iter().for_each(|&first| drop(black_box(FatFile::open(self.fat.clone(), first).unwrap())));
        let (open, ()) = timed(files, reopen);
        let mut buf = vec![7; file_blocks * block_len];
        let again = || handles.iter().cycle().take(files * TIMES);
        let (write, ()) = timed(files * TIMES, || again().for_each(|file| file.write(0, &buf).unwrap()));
        let (read, ()) = timed(files * TIMES, || again().for_each(|file| file.read(0, &mut buf).unwrap()));
        let (delete, ()) = timed(files, || handles.into_iter().for_each(|file| file.delete().unwrap()));
        [create, grow, shrink, open, write, read, delete]
    }
}

type Fs = FsMeta<SaveExtKey, SaveExtDir, SaveExtKey, FileRecord>;
type Dir = DirMeta<SaveExtKey, SaveExtDir, SaveExtKey, FileRecord>;

/// Directories in the root and files dealt to them; and how many files a round makes.
#[derive(Clone, Copy)]
pub struct TreeShape {
    pub dirs: usize,
    pub there: usize,
    pub buckets: usize,
    pub files: usize,
}

pub const TREE_CALLS: [&str; 4] = ["make", "lookup", "rename", "delete of an entry"];

pub struct Tree {
    dirs: Vec<Dir>,
    shape: TreeShape,
}

fn name(letter: char, number: usize) -> [u8; 16] {
    let mut name = [0; 16];
    let text = format!("{letter}{number:05}.sav");
    name[..text.len()].copy_from_slice(text.as_bytes());
    name
}

const RECORD: FileRecord = FileRecord { next: 0, carried: [7; 20] };

impl Tree {
    pub fn new(shape: TreeShape) -> Tree {
        let (dir_max, file_max) = (shape.dirs + 2, shape.there + shape.files + 1);
        let four = [shape.buckets * 4, dir_max * 40, shape.buckets * 4, file_max * 48].map(bytes);
        let [dh, dt, fh, ft] = four.clone().map(|file| file as Rc<dyn RandomAccessFile>);
        Fs::format(dh, dt, dir_max, fh, ft, file_max).unwrap();
        let [dh, dt, fh, ft] = four.map(|file| file as Rc<dyn RandomAccessFile>);
        let root = Dir::open_ino(Fs::new(dh, dt, fh, ft).unwrap(), 1).unwrap();
        let dirs: Vec<Dir> =
            (0..shape.dirs).map(|i| root.new_sub_dir(name('d', i), SaveExtDir { next: 0, sub_dir: 0, sub_file: 0, padding: 0 }).unwrap()).collect();
        for i in 0..shape.there {
            dirs[i % dirs.len()].new_sub_file(name('f', i), RECORD).unwrap();
        }
        Tree { dirs, shape }
    }

    fn home(&self, i: usize) -> &Dir {
        &self.dirs[i % self.dirs.len()]
    }

    /// One round: the tables are then as before, but for the order of their lists.
    pub fn round(&self) -> [f64; 4] {
        let files = self.shape.files;
        let (make, ()) = timed(files, || {
            (0..files).for_each(|i| drop(black_box(self.home(i).new_sub_file(name('n', i), RECORD).unwrap())))
        });
        let find = |i: usize| self.home(i).open_sub_file(name('n', i)).unwrap();
        let (lookup, ()) = timed(files, || (0..files).for_each(|i| drop(black_box(find(i)))));
        let mut handles: Vec<_> = (0..files).map(find).collect();
        let (rename, ()) = timed(files, || {
            handles.iter_mut().enumerate().for_each(|(i, file)| file.rename(self.home(i + 1), name('r', i)).unwrap())
        });
        let (delete, ()) = timed(files, || handles.into_iter().for_each(|file| file.delete().unwrap()));
        [make, lookup, rename, delete]
    }
}
