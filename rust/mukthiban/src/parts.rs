use crate::tables::{Tables, DIR_WIDTH, FILE_WIDTH};
use std::fmt;

/// The bytes of a volume: what stands in its files.
#[derive(Clone, Default, PartialEq, Eq)]
pub struct Parts {
    /// Bytes in a block.
    pub block_len: usize,
    /// The block table.
    pub fat: Vec<u8>,
    /// The blocks' bytes.
    pub data: Vec<u8>,
    /// The directories' buckets.
    pub dir_hash: Vec<u8>,
    /// The directories' entries.
    pub dir_table: Vec<u8>,
    /// The files' buckets.
    pub file_hash: Vec<u8>,
    /// The files' entries.
    pub file_table: Vec<u8>,
}

/// Lengths alone: the bytes are many.
impl fmt::Debug for Parts {
    fn fmt(&self, f: &mut fmt::Formatter<'_>) -> fmt::Result {
        f.debug_struct("Parts")
            .field("block_len", &self.block_len)
            .field("fat", &self.fat.len())
            .field("data", &self.data.len())
            .field("tables", &self.tables())
            .finish()
    }
}

impl Parts {
    /// The four tables of the tree.
    pub fn tables(&self) -> Tables<'_> {
        Tables {
            dir_hash: &self.dir_hash,
            dir_table: &self.dir_table,
            file_hash: &self.file_hash,
            file_table: &self.file_table,
        }
    }

    /// The blocks that the block table's length speaks of.
    pub fn blocks(&self) -> usize {
        (self.fat.len() / 8).saturating_sub(1)
    }

    /// The rooms of the two entry tables: how many entries their lengths hold.
    pub(crate) fn rooms(&self) -> (usize, usize) {
        (self.dir_table.len() / DIR_WIDTH, self.file_table.len() / FILE_WIDTH)
    }
}

/// The shape of a new volume.
#[derive(Clone, Copy, Debug, PartialEq, Eq)]
pub struct Shape {
    /// 1 to 1,000,000.
    pub blocks: usize,
    /// 512 or 4,096.
    pub block_len: usize,
    /// Entries of the directory table, entry 0 and the root included: 2 to 65,536.
    pub dir_max: usize,
    /// Entries of the file table, entry 0 included: 1 to 65,536.
    pub file_max: usize,
    /// Hash buckets of each table: 1 to 65,536.
    pub buckets: usize,
}
