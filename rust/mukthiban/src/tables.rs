//! What the calls on the entry tables are about: kinds, names, and the four tables as they are lent.

use core::fmt;

/// The root directory's inode.
pub const ROOT: u32 = 1;

/// The width of a directory entry.
pub const DIR_WIDTH: usize = 40;

/// The width of a file entry.
pub const FILE_WIDTH: usize = 48;

/// The most entries that an entry table has room for.
pub const MAX_ENTRIES: usize = 65_536;

/// The most hash buckets of a table.
pub const MAX_BUCKETS: usize = 65_536;

/// A name: any 16 bytes, all compared.
pub type Name = [u8; 16];

/// Which of the two tables an inode belongs to.
#[derive(Clone, Copy, Debug, PartialEq, Eq, Hash)]
#[repr(u32)]
pub enum Kind {
    /// A directory.
    Dir = 0,
    /// A file.
    File = 1,
}

/// Which open is asked for or given back. An inode has many readers and one writer; delete and rename need the writer's
/// open, and delete is Busy while readers remain.
#[derive(Clone, Copy, Debug, PartialEq, Eq, Hash)]
#[repr(u32)]
pub enum Want {
    /// A reader's open.
    Reader = 0,
    /// The writer's open.
    Writer = 1,
}

/// The four tables, lent to be read.
#[derive(Clone, Copy)]
pub struct Tables<'a> {
    /// The directories' buckets, 4 bytes each.
    pub dir_hash: &'a [u8],
    /// The directories' entries, [`DIR_WIDTH`] bytes each.
    pub dir_table: &'a [u8],
    /// The files' buckets, 4 bytes each.
    pub file_hash: &'a [u8],
    /// The files' entries, [`FILE_WIDTH`] bytes each.
    pub file_table: &'a [u8],
}

/// The four tables, lent to be changed.
pub struct TablesMut<'a> {
    /// The directories' buckets, 4 bytes each.
    pub dir_hash: &'a mut [u8],
    /// The directories' entries, [`DIR_WIDTH`] bytes each.
    pub dir_table: &'a mut [u8],
    /// The files' buckets, 4 bytes each.
    pub file_hash: &'a mut [u8],
    /// The files' entries, [`FILE_WIDTH`] bytes each.
    pub file_table: &'a mut [u8],
}

impl TablesMut<'_> {
    /// The same tables, to be read.
    pub fn shared(&self) -> Tables<'_> {
        Tables {
            dir_hash: self.dir_hash,
            dir_table: self.dir_table,
            file_hash: self.file_hash,
            file_table: self.file_table,
        }
    }
}

/// Lengths alone: the bytes are many.
impl fmt::Debug for Tables<'_> {
    fn fmt(&self, f: &mut fmt::Formatter<'_>) -> fmt::Result {
        f.debug_struct("Tables")
            .field("dir_hash", &self.dir_hash.len())
            .field("dir_table", &self.dir_table.len())
            .field("file_hash", &self.file_hash.len())
            .field("file_table", &self.file_table.len())
            .finish()
    }
}

/// Lengths alone: the bytes are many.
impl fmt::Debug for TablesMut<'_> {
    fn fmt(&self, f: &mut fmt::Formatter<'_>) -> fmt::Result {
        self.shared().fmt(f)
    }
}
