use super::smallest;
use crate::chains::{free_front, node};
use crate::fat::{self, MAX_BLOCKS, MAX_BLOCK_LEN};
use crate::refusal::Refusal;
use crate::whole::counts::count_files;
use crate::whole::Volume;
use std::fmt;

/// A block table without its data, tested once, for a program whose table and data stand in files elsewhere.
///
/// Every call is the proved inner call. After a changing call [`BlockTable::changed`] names the entries that it changed:
/// what the table's file needs to be written. Where that fails [`BlockTable::undo`] takes the call back.
///
/// ```
/// use mukthiban::{fat, BlockTable, Refusal};
/// let mut file = vec![0; 8 * 5];
/// fat::format(&mut file)?;
/// let mut table = BlockTable::open(file.clone(), 512)?;
///
/// let first = table.create(3)?;
/// for &entry in table.changed() {
///     let stretch = entry * 8..entry * 8 + 8;
///     file[stretch.clone()].copy_from_slice(&table.bytes()[stretch]);
/// }
/// assert_eq!(file, table.bytes());
///
/// table.delete(first)?;
/// table.undo();
/// assert_eq!(file, table.bytes());
/// assert_eq!((table.free(), table.block_count(first)), (1, Ok(3)));
/// # Ok::<(), Refusal>(())
/// ```
#[derive(Clone)]
pub struct BlockTable {
    /// Its table is the one; it has no data, and none of its calls that need data is made.
    volume: Volume,
    /// The table before the last changing call. It differs in the entries of `changed` alone.
    before: Vec<u8>,
    /// The entries that the last changing call changed, rising.
    changed: Vec<usize>,
    /// What the last changing call counted anew.
    counted: Option<Counted>,
}

/// A file's blocks and the free blocks as they were before a call.
#[derive(Clone, Copy)]
struct Counted {
    first: usize,
    blocks: u32,
    free: usize,
}

/// What it holds in numbers: the bytes are many.
impl fmt::Debug for BlockTable {
    fn fmt(&self, f: &mut fmt::Formatter<'_>) -> fmt::Result {
        f.debug_struct("BlockTable").field("blocks", &self.blocks()).field("free", &self.free()).finish_non_exhaustive()
    }
}

impl BlockTable {
    /// Tests a table and takes it over. The length of the blocks, wherever they are, is looked at as every block call does.
    pub fn open(table: Vec<u8>, block_len: usize) -> Result<BlockTable, Refusal> {
        // A table beyond the bounds is refused before the work list is looked at.
        let mut work = vec![0; (table.len() / 8).saturating_sub(1).min(MAX_BLOCKS)];
        let tested = fat::test(&table, &mut work)?;
        if !(1..=MAX_BLOCK_LEN).contains(&block_len) {
            return Err(Refusal::InvalidValue);
        }
        let mut volume = smallest();
        volume.parts.block_len = block_len;
        volume.counts = count_files(&table, tested);
        volume.free = tested.free;
        volume.parts.data = vec![];
        volume.parts.fat = table.clone();
        volume.redraw();
        Ok(BlockTable { volume, before: table, changed: vec![], counted: None })
    }

    /// The table's bytes.
    pub fn bytes(&self) -> &[u8] {
        &self.volume.parts.fat
    }

    /// Blocks in all.
    pub fn blocks(&self) -> usize {
        self.volume.blocks()
    }

    /// Free blocks.
    pub fn free(&self) -> usize {
        self.volume.free()
    }

    /// How many blocks the file has that begins there. `NotAFile` if none does.
    pub fn block_count(&self, first_block: usize) -> Result<usize, Refusal> {
        self.volume.block_count(first_block)
    }

    /// The blocks of a file, in chain order.
    pub fn open_list(&self, first_block: usize) -> Result<Vec<u32>, Refusal> {
        self.volume.open_list(first_block)
    }

    /// Adds to a list of a file's first blocks those behind them, so that it is the file's whole list: at the cost of
    /// the file's nodes and of what is added. A list that is longer than the file is cut.
    ///
    /// ```
    /// # use mukthiban::{fat, BlockTable};
    /// # let mut file = vec![0; 8 * 9];
    /// # fat::format(&mut file)?;
    /// let mut table = BlockTable::open(file, 512)?;
    /// let (one, two) = (table.create(2)?, table.create(1)?);
    /// let mut list = table.open_list(one)?;
    /// table.resize(one, 4)?;
    /// table.complete(one, &mut list)?;
    /// assert_eq!(list, [0, 1, 3, 4]);
    /// assert_eq!(list, table.open_list(one)?);
    /// # Ok::<(), mukthiban::Refusal>(())
    /// ```
    pub fn complete(&self, first_block: usize, list: &mut Vec<u32>) -> Result<(), Refusal> {
        let count = self.block_count(first_block)?;
        list.truncate(count);
        list.reserve(count - list.len());
        let (mut at, mut passed) = (first_block, 0);
        while list.len() < count {
            let (size, next) = node(self.bytes(), at);
            let known = (list.len() - passed).min(size as usize) as u32;
            list.extend(at as u32 + known..at as u32 + size);
            passed += size as usize;
            at = next.wrapping_sub(1);
        }
        Ok(())
    }

    /// Makes a file of `block_count` blocks and answers its first block.
    pub fn create(&mut self, block_count: usize) -> Result<usize, Refusal> {
        self.settle();
        let free = self.free();
        let first = self.volume.create(block_count)?;
        self.counted = Some(Counted { first, blocks: 0, free });
        self.note_last(first, None);
        self.note_front();
        Ok(first)
    }

    /// Grows or shrinks a file. Its first block stays.
    pub fn resize(&mut self, first_block: usize, block_count: usize) -> Result<(), Refusal> {
        self.settle();
        let (free, front) = (self.free(), free_front(self.bytes()));
        let blocks = self.volume.block_count(first_block).unwrap_or(0);
        self.volume.resize(first_block, block_count)?;
        self.counted = Some(Counted { first: first_block, blocks: blocks as u32, free });
        let kept = self.node_of(first_block, blocks.min(block_count));
        self.note_first(kept);
        self.note_last(kept, None);
        if block_count < blocks {
            self.note_freed(front);
        }
        self.note_front();
        Ok(())
    }

    /// Gives all blocks of a file back.
    pub fn delete(&mut self, first_block: usize) -> Result<(), Refusal> {
        self.settle();
        let (free, front) = (self.free(), free_front(self.bytes()));
        let blocks = self.volume.block_count(first_block).unwrap_or(0) as u32;
        self.volume.delete(first_block)?;
        self.counted = Some(Counted { first: first_block, blocks, free });
        self.note_freed(front);
        self.note(0);
        Ok(())
    }

    /// The entries that the last changing call changed, rising; entry `e` is bytes `8 * e` to `8 * e + 7`. None after a
    /// call that was refused.
    pub fn changed(&self) -> &[usize] {
        &self.changed
    }

    /// Takes the last changing call back: table and counts are as before it. Nothing where there is none to take back.
    ///
    /// The table is tested anew, since the inner calls rest on it; this is for the rare case.
    pub fn undo(&mut self) {
        let Some(Counted { first, blocks, free }) = self.counted.take() else { return };
        for entry in self.changed.drain(..) {
            let stretch = entry * 8..entry * 8 + 8;
            self.volume.parts.fat[stretch.clone()].copy_from_slice(&self.before[stretch]);
        }
        self.volume.counts[first] = blocks;
        self.volume.free = free;
        let mut work = vec![0; self.blocks()];
        let tested = fat::test(self.bytes(), &mut work).expect("the table before the call is sound");
        assert_eq!((tested.free, tested.files), (self.free(), self.volume.files()), "it is the one before the call");
        self.volume.redraw();
    }

    /// What was changed stays.
    fn settle(&mut self) {
        self.counted = None;
        for entry in self.changed.drain(..) {
            let stretch = entry * 8..entry * 8 + 8;
            self.before[stretch.clone()].copy_from_slice(&self.volume.parts.fat[stretch]);
        }
    }

    /// Notes an entry if it changed.
    fn note(&mut self, entry: usize) {
        let stretch = entry * 8..entry * 8 + 8;
        if self.bytes()[stretch.clone()] != self.before[stretch] {
            if let Err(place) = self.changed.binary_search(&entry) {
                self.changed.insert(place, entry);
            }
        }
    }

    /// Notes the one, two or three entries of a node.
    fn note_node(&mut self, start: usize) {
        let size = node(self.bytes(), start).0 as usize;
        self.note(start + 1);
        if size > 1 {
            self.note(start + 2);
            self.note(start + size);
        }
    }

    /// Notes the head, and the first two nodes of the free chain: what create and grow did not take of it, or what shrink
    /// cut off.
    fn note_front(&mut self) {
        self.note(0);
        if let Some(front) = free_front(self.bytes()) {
            self.note_first(front);
        }
    }

    /// Notes the last node that was put before the former free front, and that one, which names it.
    fn note_freed(&mut self, former: Option<usize>) {
        if let Some(front) = free_front(self.bytes()) {
            self.note_last(front, former);
        }
    }

    /// Notes the first two nodes of a chain from a node on.
    fn note_first(&mut self, from: usize) {
        self.note_node(from);
        if let Some(second) = self.next(from) {
            self.note_node(second);
        }
    }

    /// Notes the last two nodes of a chain from a node on, up to a node in it or to its end.
    fn note_last(&mut self, from: usize, to: Option<usize>) {
        let (mut before, mut at) = (from, from);
        while let (false, Some(next)) = (Some(at) == to, self.next(at)) {
            (before, at) = (at, next);
        }
        self.note_node(before);
        if at != before {
            self.note_node(at);
        }
    }

    /// The node behind a node.
    fn next(&self, start: usize) -> Option<usize> {
        node(self.bytes(), start).1.checked_sub(1)
    }

    /// The node of a file that has its block of that number, counted from 1.
    fn node_of(&self, first: usize, number: usize) -> usize {
        let (mut at, mut passed) = (first, 0);
        loop {
            let (size, next) = node(self.bytes(), at);
            passed += size as usize;
            if passed >= number || next == 0 {
                return at;
            }
            at = next - 1;
        }
    }
}
