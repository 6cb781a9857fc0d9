// The block table of a volume over the proved library, in the place of the original's `fat.rs`: the same names and
// signatures. `docs/SAVE3DS.md` says what differs.
//
// The table is read and tested once, when it is opened, and kept. Every change is made by a proved call on the kept
// table; the entries that it changed are then written, and no others. Data go block by block to the data file.

use crate::error::*;
use crate::random_access_file::*;
use mukthiban::fat::{self, MAX_BLOCKS, MAX_BLOCK_LEN};
use mukthiban::{BlockTable, Refusal};
use std::cell::RefCell;
use std::rc::Rc;

/// Bytes of an entry.
const ENTRY: usize = 8;

/// The original's name for a refusal. It has none for a block that begins no file: only a broken volume names one.
fn named(refusal: Refusal) -> Error {
    match refusal {
        Refusal::SizeMismatch => Error::SizeMismatch,
        Refusal::BrokenFat | Refusal::NotAFile => Error::BrokenFat,
        Refusal::NoSpace => Error::NoSpace,
        Refusal::OutOfBound => Error::OutOfBound,
        Refusal::ReadOnlyVolume => Error::Unsupported,
        _ => Error::InvalidValue,
    }
}

/// Refused, by the original's name.
fn refuse<T>(refusal: Refusal) -> Result<T, Error> {
    make_error(named(refusal))
}

/// The blocks of a table of that length, where it is within its bounds.
fn block_count(table_len: usize) -> Result<usize, Error> {
    if table_len < ENTRY || table_len % ENTRY != 0 {
        return refuse(Refusal::SizeMismatch);
    }
    match table_len / ENTRY - 1 {
        blocks @ 1..=MAX_BLOCKS => Ok(blocks),
        _ => refuse(Refusal::InvalidValue),
    }
}

/// Reads a table. Where a part of it was never written, which a file with hashes refuses to read, only the entries are
/// read that the rules read.
fn read_table(table: &dyn RandomAccessFile, blocks: usize) -> Result<Vec<u8>, Error> {
    let mut bytes = vec![0; (blocks + 1) * ENTRY];
    match table.read(0, &mut bytes) {
        Err(Error::HashMismatch) => read_nodes(table, blocks),
        read => read.map(|()| bytes),
    }
}

/// Reads the head and each node's one, two or three entries, up to the first node that has no such form: this is for the
/// test to refuse. The rest is zeros, which is no entry that the rules accept.
fn read_nodes(table: &dyn RandomAccessFile, blocks: usize) -> Result<Vec<u8>, Error> {
    let mut bytes = vec![0; (blocks + 1) * ENTRY];
    let mut second_half = |entry: usize| -> Result<u32, Error> {
        let place = &mut bytes[entry * ENTRY..(entry + 1) * ENTRY];
        table.read(entry * ENTRY, place)?;
        Ok(u32::from_le_bytes([place[4], place[5], place[6], place[7]]))
    };
    second_half(0)?;
    let mut block = 0;
    while block < blocks {
        let mut end = block + 1;
        if second_half(block + 1)? >> 31 == 1 {
            if block + 2 > blocks {
                break;
            }
            end = second_half(block + 2)? as usize;
            if end < block + 2 || end > blocks {
                break;
            }
            second_half(end)?;
        }
        block = end;
    }
    Ok(bytes)
}

/// A file allocation table, kept in memory beside its file.
pub struct Fat {
    table: Rc<dyn RandomAccessFile>,
    data: Rc<dyn RandomAccessFile>,
    block_len: usize,
    kept: RefCell<BlockTable>,
    /// The entries of which the file may hold something else, since a write failed. They are written before the next
    /// change.
    unsaved: RefCell<Vec<usize>>,
    /// For each block how often a file that begins there was made or resized, so that a handle can tell whether its list
    /// is of the file as it is now.
    turns: RefCell<Vec<u32>>,
}

impl Fat {
    /// Makes one free node of all blocks.
    pub fn format(table: &dyn RandomAccessFile) -> Result<(), Error> {
        let blocks = block_count(table.len())?;
        let mut bytes = vec![0; (blocks + 1) * ENTRY];
        fat::format(&mut bytes).or_else(refuse)?;
        // The head and the node's entries: the rest of a table is never read.
        let mut entries = vec![0, 1];
        if blocks > 1 {
            entries.extend([2, blocks]);
            entries.dedup();
        }
        for entry in entries {
            let at = entry * ENTRY;
            table.write(at, &bytes[at..at + ENTRY])?;
        }
        Ok(())
    }

    /// Opens a table with its data. A table that is not sound is `BrokenFat`.
    pub fn new(
        table: Rc<dyn RandomAccessFile>,
        data: Rc<dyn RandomAccessFile>,
        block_len: usize,
    ) -> Result<Rc<Fat>, Error> {
        let fits = |blocks: usize| blocks.checked_mul(block_len) == Some(data.len());
        if table.len() >= ENTRY && !fits(table.len() / ENTRY - 1) {
            return refuse(Refusal::SizeMismatch);
        }
        let blocks = block_count(table.len())?;
        if !(1..=MAX_BLOCK_LEN).contains(&block_len) {
            return refuse(Refusal::InvalidValue);
        }
        let kept = BlockTable::open(read_table(table.as_ref(), blocks)?, block_len).or_else(refuse)?;
        let (kept, turns) = (RefCell::new(kept), RefCell::new(vec![0; blocks]));
        Ok(Rc::new(Fat { table, data, block_len, kept, unsaved: RefCell::default(), turns }))
    }

    pub fn free_blocks(&self) -> usize {
        self.kept.borrow().free()
    }

    /// Volumes of other block lengths are not shipped: they can be read, and are not changed. The proved calls see to it
    /// for the table, this for the data.
    fn may_write(&self) -> Result<(), Error> {
        match self.block_len {
            512 | 4_096 => Ok(()),
            _ => refuse(Refusal::ReadOnlyVolume),
        }
    }

    /// Makes a change in the kept table and writes what it changed. Where a write fails the change is taken back, in
    /// memory and in the file.
    fn change<T>(&self, call: impl FnOnce(&mut BlockTable) -> Result<T, Refusal>) -> Result<T, Error> {
        let mut kept = self.kept.borrow_mut();
        self.save_rest(&kept)?;
        let answer = call(&mut kept).or_else(refuse)?;
        for (done, &entry) in kept.changed().iter().enumerate() {
            if let Err(error) = self.save(&kept, entry) {
                self.unsaved.borrow_mut().extend_from_slice(&kept.changed()[..=done]);
                kept.undo();
                // What this can't write stays noted, and is written before the next change.
                let _ = self.save_rest(&kept);
                return Err(error);
            }
        }
        Ok(answer)
    }

    /// Counts that the file at a block was made or resized.
    fn turn(&self, first: usize) -> u32 {
        let turn = &mut self.turns.borrow_mut()[first];
        *turn = turn.wrapping_add(1);
        *turn
    }

    fn save(&self, kept: &BlockTable, entry: usize) -> Result<(), Error> {
        let at = entry * ENTRY;
        self.table.write(at, &kept.bytes()[at..at + ENTRY])
    }

    /// Writes the entries that a failed write left behind.
    fn save_rest(&self, kept: &BlockTable) -> Result<(), Error> {
        let mut unsaved = self.unsaved.borrow_mut();
        while let Some(&entry) = unsaved.last() {
            self.save(kept, entry)?;
            unsaved.pop();
        }
        Ok(())
    }
}

/// A handle to a file in `Fat` that implements resizing, releasing, reading and writing.
pub struct FatFile {
    fat: Rc<Fat>,
    /// The file's blocks, in chain order; there is at least one.
    block_list: Vec<u32>,
    /// The turn of the file that they are of.
    turn: u32,
}

impl FatFile {
    /// Opens the file at the specific block index. A block that begins no file is `BrokenFat`.
    pub fn open(fat: Rc<Fat>, first_block: usize) -> Result<FatFile, Error> {
        let block_list = fat.kept.borrow().open_list(first_block).or_else(refuse)?;
        let turn = fat.turns.borrow()[first_block];
        Ok(FatFile { fat, block_list, turn })
    }

    /// Allocates a new file in `Fat` and returns its handle and block index.
    pub fn create(fat: Rc<Fat>, block_count: usize) -> Result<(FatFile, usize), Error> {
        let first = fat.change(|kept| kept.create(block_count))?;
        let mut block_list = vec![];
        fat.kept.borrow().complete(first, &mut block_list).or_else(refuse)?;
        let turn = fat.turn(first);
        Ok((FatFile { fat, block_list, turn }, first))
    }

    /// Releases the space this file holds.
    pub fn delete(self) -> Result<(), Error> {
        self.fat.change(|kept| kept.delete(self.first()))
    }

    /// Allocates more blocks for the file or releases some blocks.
    pub fn resize(&mut self, block_count: usize) -> Result<(), Error> {
        let first = self.first();
        self.fat.change(|kept| kept.resize(first, block_count))?;
        // Another handle may have changed the file since this one's list was read.
        if self.fat.turns.borrow()[first] != self.turn {
            self.block_list.clear();
        }
        self.turn = self.fat.turn(first);
        self.fat.kept.borrow().complete(first, &mut self.block_list).or_else(refuse)
    }

    fn first(&self) -> usize {
        self.block_list[0] as usize
    }

    /// The blocks from a position on, and where in the first of them it is. Its end must be within the file.
    fn blocks_at(&self, pos: usize, len: usize) -> Result<(&[u32], usize), Error> {
        match pos.checked_add(len) {
            Some(end) if end <= self.len() => {
                let block_len = self.fat.block_len;
                Ok((&self.block_list[pos / block_len..], pos % block_len))
            }
            _ => refuse(Refusal::OutOfBound),
        }
    }
}

impl RandomAccessFile for FatFile {
    fn read(&self, pos: usize, mut buf: &mut [u8]) -> Result<(), Error> {
        let (blocks, mut offset) = self.blocks_at(pos, buf.len())?;
        let (data, block_len) = (self.fat.data.as_ref(), self.fat.block_len);
        for &block in blocks {
            if buf.is_empty() {
                break;
            }
            let (share, rest) = buf.split_at_mut(buf.len().min(block_len - offset));
            data.read(block as usize * block_len + offset, share)?;
            (buf, offset) = (rest, 0);
        }
        Ok(())
    }

    fn write(&self, pos: usize, mut buf: &[u8]) -> Result<(), Error> {
        self.fat.may_write()?;
        let (blocks, mut offset) = self.blocks_at(pos, buf.len())?;
        let (data, block_len) = (self.fat.data.as_ref(), self.fat.block_len);
        for &block in blocks {
            if buf.is_empty() {
                break;
            }
            let (share, rest) = buf.split_at(buf.len().min(block_len - offset));
            data.write(block as usize * block_len + offset, share)?;
            (buf, offset) = (rest, 0);
        }
        Ok(())
    }

    fn len(&self) -> usize {
        self.block_list.len() * self.fat.block_len
    }

    fn commit(&self) -> Result<(), Error> {
        Ok(())
    }
}
