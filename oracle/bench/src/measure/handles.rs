//! Reading and writing with a file open: what it costs once the blocks are known.

use super::{digest, pattern, Side};
use crate::peers::files;
use compare::chance::Chance;
use mukthiban::{name, FileMut, Parts, Record, Shape, Volume, ROOT};
use original::Opened;
use port::Blocks;
use std::cell::RefCell;
use std::io::{Read, Seek, SeekFrom, Write};

/// A file that is open.
trait Open {
    fn read(&mut self, pos: usize, buf: &mut [u8]);
    fn write(&mut self, pos: usize, buf: &[u8]);
}

impl Open for Opened<'_> {
    fn read(&mut self, pos: usize, buf: &mut [u8]) {
        Opened::read(self, pos, buf).expect("within the file");
    }
    fn write(&mut self, pos: usize, buf: &[u8]) {
        Opened::write(self, pos, buf).expect("within the file");
    }
}

/// Plain bytes, and the file's block list.
struct Plain {
    data: Vec<u8>,
    block_len: usize,
    list: Vec<u32>,
}

impl Open for &mut Plain {
    fn read(&mut self, pos: usize, buf: &mut [u8]) {
        files::read(&self.data, self.block_len, &self.list, pos, buf).expect("within the file");
    }
    fn write(&mut self, pos: usize, buf: &[u8]) {
        files::write(&mut self.data, self.block_len, &self.list, pos, buf).expect("within the file");
    }
}

impl Open for FileMut<'_> {
    fn read(&mut self, pos: usize, buf: &mut [u8]) {
        self.seek(SeekFrom::Start(pos as u64)).expect("a place");
        self.read_exact(buf).expect("within the file");
    }
    fn write(&mut self, pos: usize, buf: &[u8]) {
        self.seek(SeekFrom::Start(pos as u64)).expect("a place");
        self.write_all(buf).expect("within the file");
    }
}

/// One volume three times: the Rust crate's, the original's, and plain bytes with the file's block list.
pub struct OpenFile {
    ours: Volume,
    inode: u32,
    theirs: Option<original::Volume>,
    plain: Plain,
    first: usize,
    size: usize,
}

impl OpenFile {
    /// The file that begins at a block and has so many.
    pub fn new(mut lent: Blocks, first: usize, blocks: usize) -> OpenFile {
        for (i, word) in lent.data.as_chunks_mut::<8>().0.iter_mut().enumerate() {
            *word = (i as u64).wrapping_mul(0x9E37_79B9_7F4A_7C15).to_le_bytes();
        }
        let Blocks { table, data, block_len, .. } = lent;
        let size = blocks * block_len;
        let shape = Shape { blocks: table.len() / 8 - 1, block_len, dir_max: 2, file_max: 2, buckets: 1 };
        let mut volume = Volume::new(shape).expect("a volume");
        let mut carried = [0; 20];
        Record { first_block: first as u32, size: size as u64 }.put(&mut carried);
        let inode = volume.make_file(ROOT, &name::from_text("slot1.sav").expect("a name"), &carried).expect("room");
        let theirs = original::PRESENT.then(|| original::Volume::open(&table, &data, block_len).expect("it opens"));
        let parts = Parts { fat: table, data: data.clone(), ..volume.into_parts() };
        let ours = Volume::open(parts).expect("a sound volume");
        let list = ours.open_list(first).expect("a file");
        OpenFile { ours, inode, theirs, plain: Plain { data, block_len, list }, first, size }
    }
}

/// At each of some places a part of the file, read or written. What was written is read back, over zeros that were written before.
fn side<'a>(name: &'static str, open: impl Open + 'a, len: usize, places: &[usize], write: bool) -> Side<'a> {
    let (open, places) = (std::rc::Rc::new(RefCell::new(open)), places.to_vec());
    let buf = std::rc::Rc::new(RefCell::new(pattern(len)));
    let (spoiled, left) = ((open.clone(), buf.clone(), places.clone()), (open.clone(), buf.clone(), places.clone()));
    let run = move || {
        let (mut open, mut buf, mut sum) = (open.borrow_mut(), buf.borrow_mut(), 0);
        for pos in &places {
            if write {
                open.write(*pos, &buf);
            } else {
                open.read(*pos, &mut buf);
            }
            sum += buf[0] as u64;
        }
        [0, sum, 0]
    };
    Side {
        name,
        spoil: Box::new(move || {
            let (open, buf, places) = &spoiled;
            match write {
                true => places.iter().for_each(|pos| open.borrow_mut().write(*pos, &vec![0; len])),
                false => buf.borrow_mut().fill(0),
            }
        }),
        ready: Box::new(|| {}),
        run: Box::new(run),
        left: Box::new(move || {
            let (open, buf, places) = &left;
            if write {
                open.borrow_mut().read(places[0], &mut buf.borrow_mut());
            }
            digest(&buf.borrow())
        }),
        times: 1,
        apart: false,
    }
}

/// The same on every side.
pub fn sides(on: &mut OpenFile, len: usize, places: usize, write: bool) -> Vec<Side<'_>> {
    let mut chance = Chance::new(len as u64);
    let places: Vec<usize> = (0..places).map(|_| chance.below(on.size - len + 1)).collect();
    let mut sides = vec![];
    if let Some(theirs) = &mut on.theirs {
        let file = theirs.opened(on.first).expect("a file");
        sides.push(side("original, handle open", file, len, &places, write));
    }
    sides.push(side("plain Rust, block list open", &mut on.plain, len, &places, write));
    sides.push(side("File of Volume", on.ours.file_mut(on.inode).expect("a file"), len, &places, write));
    sides
}
