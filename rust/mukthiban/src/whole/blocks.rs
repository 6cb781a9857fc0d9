//! The block calls of a volume. Those that change something answer `ReadOnlyVolume` where the block length is not in use:
//! the inner calls look at it themselves.
//!
//! Safety, for each call of the library here: the tables are sound and nothing but these calls changes them, as
//! [`Volume`] says.

use super::Volume;
use crate::inner;
use crate::refusal::{judge, Refusal};

impl Volume {
    /// Makes a file of `block_count` blocks and answers its first block. No data byte changes.
    pub fn create(&mut self, block_count: usize) -> Result<usize, Refusal> {
        // SAFETY: here and below, the tables are sound, and maps and counts right, as the type's documentation says.
        let r = unsafe { inner::create(&mut self.parts, &mut self.maps, block_count) };
        judge(r.answer)?;
        self.free -= block_count;
        self.counts[r.first_block] = block_count as u32;
        Ok(r.first_block)
    }

    /// Grows or shrinks a file. Its first block stays.
    pub fn resize(&mut self, first_block: usize, block_count: usize) -> Result<(), Refusal> {
        let r = unsafe { inner::resize(&mut self.parts, &mut self.maps, first_block, block_count) };
        judge(r.answer)?;
        self.free = self.free + self.counts[first_block] as usize - block_count;
        self.counts[first_block] = block_count as u32;
        Ok(())
    }

    /// Gives all blocks of a file back.
    pub fn delete(&mut self, first_block: usize) -> Result<(), Refusal> {
        let r = unsafe { inner::delete(&mut self.parts, &mut self.maps, first_block) };
        judge(r.answer)?;
        self.free += self.counts[first_block] as usize;
        self.counts[first_block] = 0;
        Ok(())
    }

    /// Merges free neighbours: the free chain becomes the longest stretches of free blocks, rising. Every file stays, and
    /// so do all counts.
    pub fn merge(&mut self) -> Result<(), Refusal> {
        let mut work = vec![0; self.parts.blocks()];
        // SAFETY: the table is sound, and the work list is n places of 0.
        let r = unsafe { inner::merge(&mut self.parts, &mut work) };
        judge(r.answer)?;
        self.redraw();
        Ok(())
    }

    /// The blocks of a file, in chain order.
    pub fn open_list(&self, first_block: usize) -> Result<Vec<u32>, Refusal> {
        let mut list = vec![0; self.block_count(first_block).unwrap_or(0)];
        let r = unsafe { inner::open_list(&self.parts, &self.maps.firsts, first_block, &mut list) };
        judge(r.answer)?;
        list.truncate(r.count);
        Ok(list)
    }

    /// Reads `buf.len()` bytes of a file from `pos` on.
    pub fn read(&self, first_block: usize, pos: usize, buf: &mut [u8]) -> Result<(), Refusal> {
        judge(unsafe { inner::read(&self.parts, &self.maps.firsts, first_block, pos, buf) }.answer)
    }

    /// Writes `buf` to a file from `pos` on.
    pub fn write(&mut self, first_block: usize, pos: usize, buf: &[u8]) -> Result<(), Refusal> {
        judge(unsafe { inner::write(&mut self.parts, &self.maps.firsts, first_block, pos, buf) }.answer)
    }
}
