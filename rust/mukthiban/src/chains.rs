//! A file's blocks at the cost of the file alone, and the free nodes.

use crate::refusal::Refusal;
use crate::whole::Volume;

impl Volume {
    /// The blocks of a file, in chain order, as [`Volume::open_list`] gives them. The nodes before the file are not
    /// looked at: that the block begins one is known from the counts, and the chain is followed by the node
    /// rule on a table that the test has accepted.
    ///
    /// ```
    /// # use mukthiban::{Shape, Volume};
    /// let shape = Shape { blocks: 8, block_len: 512, dir_max: 4, file_max: 4, buckets: 3 };
    /// let mut volume = Volume::new(shape)?;
    /// let (one, two) = (volume.create(2)?, volume.create(2)?);
    /// volume.delete(one)?;
    /// volume.resize(two, 5)?;
    /// assert_eq!(volume.chain(two)?, [2, 3, 0, 1, 4]);
    /// assert_eq!(volume.chain(two)?, volume.open_list(two)?);
    /// assert_eq!(volume.chain(one), volume.open_list(one));
    /// # Ok::<(), mukthiban::Refusal>(())
    /// ```
    pub fn chain(&self, first_block: usize) -> Result<Vec<u32>, Refusal> {
        let count = self.block_count(first_block)?;
        let mut list = Vec::with_capacity(count);
        let mut at = first_block;
        while list.len() < count {
            let (size, next) = node(&self.parts().fat, at);
            list.extend(at as u32..at as u32 + size);
            at = next.wrapping_sub(1);
        }
        Ok(list)
    }

    /// The nodes of a file, in its order, each as its first block and its length.
    ///
    /// ```
    /// # use mukthiban::{Shape, Volume};
    /// let shape = Shape { blocks: 8, block_len: 512, dir_max: 4, file_max: 4, buckets: 3 };
    /// let mut volume = Volume::new(shape)?;
    /// let (one, two) = (volume.create(2)?, volume.create(2)?);
    /// volume.delete(one)?;
    /// volume.resize(two, 5)?;
    /// assert_eq!(volume.nodes(two)?, [(2, 2), (0, 2), (4, 1)]);
    /// # Ok::<(), mukthiban::Refusal>(())
    /// ```
    pub fn nodes(&self, first_block: usize) -> Result<Vec<(u32, u32)>, Refusal> {
        self.block_count(first_block)?;
        Ok(nodes(&self.parts().fat, Some(first_block)))
    }

    /// The nodes of the free chain, in its order, each as its first block and its length.
    ///
    /// ```
    /// # use mukthiban::{Shape, Volume};
    /// let shape = Shape { blocks: 8, block_len: 512, dir_max: 4, file_max: 4, buckets: 3 };
    /// let mut volume = Volume::new(shape)?;
    /// for file in [volume.create(2)?, volume.create(3)?] {
    ///     volume.delete(file)?;
    /// }
    /// assert_eq!(volume.free_nodes(), [(2, 3), (0, 2), (5, 3)]);
    /// volume.merge()?;
    /// assert_eq!(volume.free_nodes(), [(0, 8)]);
    /// # Ok::<(), mukthiban::Refusal>(())
    /// ```
    pub fn free_nodes(&self) -> Vec<(u32, u32)> {
        let table = &self.parts().fat;
        nodes(table, free_front(table))
    }
}

/// The nodes from one on to the end of its chain.
fn nodes(table: &[u8], mut at: Option<usize>) -> Vec<(u32, u32)> {
    let mut nodes = Vec::new();
    while let Some(start) = at {
        let (size, next) = node(table, start);
        nodes.push((start as u32, size));
        at = next.checked_sub(1);
    }
    nodes
}

/// The index that a word of the table holds.
fn word(table: &[u8], at: usize) -> usize {
    (u32::from_le_bytes(table[at..at + 4].try_into().expect("4 bytes")) & 0x7FFF_FFFF) as usize
}

/// The first node of the free chain.
pub(crate) fn free_front(table: &[u8]) -> Option<usize> {
    word(table, 4).checked_sub(1)
}

/// The node at a block, on a table that the test has accepted: its blocks, and the index of the next.
pub(crate) fn node(table: &[u8], block: usize) -> (u32, usize) {
    let size = match table[block * 8 + 15] >> 7 {
        0 => 1,
        _ => word(table, block * 8 + 20) - block,
    };
    (size as u32, word(table, block * 8 + 12))
}
