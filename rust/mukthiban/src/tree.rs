//! The entry tables, call by call, over lent slices.
//!
//! Each call tests all four tables before it does anything, so it may be handed any bytes. A work list has a place for
//! each entry of both tables. The open records of a table are a packed list, two places a record, the inode and its
//! record, rising by inode, with the number of records beside it: a list of any content where that number is 0. Where
//! many calls are made on one volume, [`Volume`](crate::Volume) tests once.
//!
//! ```
//! use mukthiban::{tree, tree::TablesMut, Refusal, ROOT};
//! let (mut dir_hash, mut dir_table) = ([0u8; 4 * 5], [0u8; 40 * 4]);
//! let (mut file_hash, mut file_table) = ([0u8; 4 * 5], [0u8; 48 * 4]);
//! let mut work = [0u32; 8];
//! // Two places for each inode that is open at a time, and the number of records.
//! let (mut dir_opens, mut dirs_opened, mut file_opens, mut files_opened) = ([0u32; 4], 0, [0u32; 4], 0);
//! let mut tables = TablesMut {
//!     dir_hash: &mut dir_hash,
//!     dir_table: &mut dir_table,
//!     file_hash: &mut file_hash,
//!     file_table: &mut file_table,
//! };
//! tree::format(&mut tables, 4, 4)?;
//!
//! let dir = tree::make_dir(&mut tables, &mut work, &mut dir_opens, &mut dirs_opened, ROOT, b"saves\0\0\0\0\0\0\0\0\0\0\0", &[0; 4])?;
//! let file = tree::make_file(&mut tables, &mut work, &mut file_opens, &mut files_opened, dir, b"slot1\0\0\0\0\0\0\0\0\0\0\0", &[7; 20])?;
//! assert_eq!(tree::carried_file(tables.shared(), &mut work, file)?, [7; 20]);
//! assert_eq!(tree::delete_dir(&mut tables, &mut work, &mut dir_opens, &mut dirs_opened, dir), Err(Refusal::NotEmpty));
//! # Ok::<(), Refusal>(())
//! ```

use crate::refusal::{judge, Refusal};
use core::fmt;
use mukthiban_ffi as ffi;

pub use crate::tables::{Kind, Name, Tables, TablesMut, Want, DIR_WIDTH, FILE_WIDTH, MAX_BUCKETS, MAX_ENTRIES, ROOT};

/// What lookup answers.
#[derive(Clone, Copy, Debug, PartialEq, Eq)]
pub struct Found {
    /// The entry's inode.
    pub inode: u32,
    /// Entries of the bucket that were compared: the match's place, from 1.
    pub compared: u32,
}

/// Why lookup answered no inode. With `NotFound` it says how many entries were compared: the bucket's length.
#[derive(Clone, Copy, Debug, PartialEq, Eq)]
pub struct Missed {
    /// Why: `NotFound`, or what every call can answer.
    pub refusal: Refusal,
    /// With `NotFound` the bucket's length, else 0.
    pub compared: u32,
}

impl fmt::Display for Missed {
    fn fmt(&self, f: &mut fmt::Formatter<'_>) -> fmt::Result {
        self.refusal.fmt(f)
    }
}

impl core::error::Error for Missed {
    fn source(&self) -> Option<&(dyn core::error::Error + 'static)> {
        Some(&self.refusal)
    }
}

impl From<Missed> for Refusal {
    fn from(missed: Missed) -> Refusal {
        missed.refusal
    }
}

/// What stat counts, of one table.
#[derive(Clone, Copy, Debug, PartialEq, Eq)]
pub struct Room {
    /// Entries in all.
    pub total: usize,
    /// Entries still free.
    pub free: usize,
}

/// What stat answers.
#[derive(Clone, Copy, Debug, PartialEq, Eq)]
pub struct Stat {
    /// The directory table.
    pub dirs: Room,
    /// The file table.
    pub files: Room,
}

// A call of the library on the four tables, to be read or to be changed.
macro_rules! on_tables {
    ($call:ident, read $t:expr, $($rest:expr),* $(,)?) => {
        // SAFETY: pointers and lengths are those of slices, and what is lent `&mut` overlaps nothing.
        unsafe {
            ffi::$call(
                $t.dir_hash.as_ptr(), $t.dir_hash.len(), $t.dir_table.as_ptr(), $t.dir_table.len(),
                $t.file_hash.as_ptr(), $t.file_hash.len(), $t.file_table.as_ptr(), $t.file_table.len(),
                $($rest),*
            )
        }
    };
    ($call:ident, change $t:expr, $($rest:expr),* $(,)?) => {
        // SAFETY: as above.
        unsafe {
            ffi::$call(
                $t.dir_hash.as_mut_ptr(), $t.dir_hash.len(), $t.dir_table.as_mut_ptr(), $t.dir_table.len(),
                $t.file_hash.as_mut_ptr(), $t.file_hash.len(), $t.file_table.as_mut_ptr(), $t.file_table.len(),
                $($rest),*
            )
        }
    };
}

pub(crate) fn found(r: ffi::Found) -> Result<Found, Missed> {
    match judge(r.answer) {
        Ok(()) => Ok(Found { inode: r.inode, compared: r.compared }),
        Err(refusal) => Err(Missed { refusal, compared: r.compared }),
    }
}

pub(crate) fn made(r: ffi::Made) -> Result<u32, Refusal> {
    judge(r.answer)?;
    Ok(r.inode)
}

pub(crate) fn listed(r: ffi::Listed) -> Result<usize, Refusal> {
    judge(r.answer)?;
    Ok(r.count)
}

pub(crate) fn stated(r: ffi::Stat) -> Result<Stat, Refusal> {
    judge(r.answer)?;
    Ok(Stat {
        dirs: Room { total: r.dir_total, free: r.dir_free },
        files: Room { total: r.file_total, free: r.file_free },
    })
}

pub(crate) fn name_at(table: &[u8], offset: usize) -> &Name {
    table[offset..offset + 16].try_into().expect("16 bytes")
}

/// Makes an empty tree: the root directory alone. The maxima count entry 0.
pub fn format(tables: &mut TablesMut<'_>, dir_max: usize, file_max: usize) -> Result<(), Refusal> {
    // SAFETY: as above.
    let r = unsafe {
        ffi::mukthiban_tree_format(
            tables.dir_hash.as_mut_ptr(),
            tables.dir_hash.len(),
            tables.dir_table.as_mut_ptr(),
            tables.dir_table.len(),
            dir_max,
            tables.file_hash.as_mut_ptr(),
            tables.file_hash.len(),
            tables.file_table.as_mut_ptr(),
            tables.file_table.len(),
            file_max,
        )
    };
    judge(r.answer)
}

/// Tests whether the entry tables are sound.
pub fn test(tables: Tables<'_>, work: &mut [u32]) -> Result<(), Refusal> {
    judge(on_tables!(mukthiban_tree_test, read tables, work.as_mut_ptr(), work.len()).answer)
}

/// Finds a directory by parent and name. The root has parent 0 and the zero name.
pub fn lookup_dir(tables: Tables<'_>, work: &mut [u32], parent: u32, name: &Name) -> Result<Found, Missed> {
    found(on_tables!(mukthiban_tree_lookup_dir, read tables, work.as_mut_ptr(), work.len(), parent, name))
}

/// Finds a file by parent and name.
pub fn lookup_file(tables: Tables<'_>, work: &mut [u32], parent: u32, name: &Name) -> Result<Found, Missed> {
    found(on_tables!(mukthiban_tree_lookup_file, read tables, work.as_mut_ptr(), work.len(), parent, name))
}

/// Makes a directory, held by its writer. `opens` are the directories'.
pub fn make_dir(
    tables: &mut TablesMut<'_>,
    work: &mut [u32],
    opens: &mut [u32],
    opened: &mut usize,
    parent: u32,
    name: &Name,
    carried: &[u8; 4],
) -> Result<u32, Refusal> {
    made(on_tables!(
        mukthiban_tree_make_dir, change tables,
        work.as_mut_ptr(), work.len(), opens.as_mut_ptr(), opens.len(), opened, parent, name, carried,
    ))
}

/// Makes a file entry, held by its writer. `opens` are the files'.
pub fn make_file(
    tables: &mut TablesMut<'_>,
    work: &mut [u32],
    opens: &mut [u32],
    opened: &mut usize,
    parent: u32,
    name: &Name,
    carried: &[u8; 20],
) -> Result<u32, Refusal> {
    made(on_tables!(
        mukthiban_tree_make_file, change tables,
        work.as_mut_ptr(), work.len(), opens.as_mut_ptr(), opens.len(), opened, parent, name, carried,
    ))
}

/// Gives a directory that a writer holds another parent and name. Readers do not keep it off.
pub fn rename_dir(
    tables: &mut TablesMut<'_>,
    work: &mut [u32],
    opens: &[u32],
    opened: usize,
    inode: u32,
    parent: u32,
    name: &Name,
) -> Result<(), Refusal> {
    let r = on_tables!(
        mukthiban_tree_rename_dir, change tables,
        work.as_mut_ptr(), work.len(), opens.as_ptr(), opens.len(), &opened, inode, parent, name,
    );
    judge(r.answer)
}

/// Gives a file that a writer holds another parent and name. Readers do not keep it off.
pub fn rename_file(
    tables: &mut TablesMut<'_>,
    work: &mut [u32],
    opens: &[u32],
    opened: usize,
    inode: u32,
    parent: u32,
    name: &Name,
) -> Result<(), Refusal> {
    let r = on_tables!(
        mukthiban_tree_rename_file, change tables,
        work.as_mut_ptr(), work.len(), opens.as_ptr(), opens.len(), &opened, inode, parent, name,
    );
    judge(r.answer)
}

/// Deletes a directory without children that its writer holds and no reader.
pub fn delete_dir(
    tables: &mut TablesMut<'_>,
    work: &mut [u32],
    opens: &mut [u32],
    opened: &mut usize,
    inode: u32,
) -> Result<(), Refusal> {
    let r = on_tables!(
        mukthiban_tree_delete_dir, change tables,
        work.as_mut_ptr(), work.len(), opens.as_mut_ptr(), opens.len(), opened, inode,
    );
    judge(r.answer)
}

/// Deletes a file entry that its writer holds and no reader. Its blocks are not touched.
pub fn delete_file(
    tables: &mut TablesMut<'_>,
    work: &mut [u32],
    opens: &mut [u32],
    opened: &mut usize,
    inode: u32,
) -> Result<(), Refusal> {
    let r = on_tables!(
        mukthiban_tree_delete_file, change tables,
        work.as_mut_ptr(), work.len(), opens.as_mut_ptr(), opens.len(), opened, inode,
    );
    judge(r.answer)
}

/// Writes the inodes of the directories in a directory to `list`, and answers how many they are.
pub fn list_dirs(tables: Tables<'_>, work: &mut [u32], inode: u32, list: &mut [u32]) -> Result<usize, Refusal> {
    listed(on_tables!(
        mukthiban_tree_list_dirs, read tables,
        work.as_mut_ptr(), work.len(), inode, list.as_mut_ptr(), list.len(),
    ))
}

/// Writes the inodes of the files in a directory to `list`, and answers how many they are.
pub fn list_files(tables: Tables<'_>, work: &mut [u32], inode: u32, list: &mut [u32]) -> Result<usize, Refusal> {
    listed(on_tables!(
        mukthiban_tree_list_files, read tables,
        work.as_mut_ptr(), work.len(), inode, list.as_mut_ptr(), list.len(),
    ))
}

/// Entries in all and entries still free, of both tables.
pub fn stat(tables: Tables<'_>, work: &mut [u32]) -> Result<Stat, Refusal> {
    stated(on_tables!(mukthiban_tree_stat, read tables, work.as_mut_ptr(), work.len()))
}

/// Whether an honest writer can have left the tables, by the orders of their lists: nothing, or an entry by which none can. The root, where it is not the
/// last of its bucket; else the lowest directory, or else the lowest file, from which links lead into a circle.
pub fn aged(tables: Tables<'_>, work: &mut [u32]) -> Result<Option<(Kind, u32)>, Refusal> {
    let r = on_tables!(mukthiban_tree_aged, read tables, work.as_mut_ptr(), work.len());
    judge(r.answer)?;
    Ok(match r.table {
        0 => None,
        1 => Some((Kind::Dir, r.inode)),
        _ => Some((Kind::File, r.inode)),
    })
}

/// The name of a live inode, as a part of its table.
pub fn name<'a>(tables: Tables<'a>, work: &mut [u32], kind: Kind, inode: u32) -> Result<&'a Name, Refusal> {
    let r = on_tables!(mukthiban_tree_name, read tables, work.as_mut_ptr(), work.len(), kind as u32, inode);
    judge(r.answer)?;
    let table = match kind {
        Kind::Dir => tables.dir_table,
        Kind::File => tables.file_table,
    };
    Ok(name_at(table, r.offset))
}

/// A directory's 4 carried bytes.
pub fn carried_dir(tables: Tables<'_>, work: &mut [u32], inode: u32) -> Result<[u8; 4], Refusal> {
    let mut carried = [0; 4];
    let r = on_tables!(
        mukthiban_tree_carried_dir, read tables,
        work.as_mut_ptr(), work.len(), inode, &mut carried,
    );
    judge(r.answer)?;
    Ok(carried)
}

/// A file's 20 carried bytes.
pub fn carried_file(tables: Tables<'_>, work: &mut [u32], inode: u32) -> Result<[u8; 20], Refusal> {
    let mut carried = [0; 20];
    let r = on_tables!(
        mukthiban_tree_carried_file, read tables,
        work.as_mut_ptr(), work.len(), inode, &mut carried,
    );
    judge(r.answer)?;
    Ok(carried)
}

/// Sets a directory's 4 carried bytes.
pub fn set_carried_dir(
    tables: &mut TablesMut<'_>,
    work: &mut [u32],
    inode: u32,
    carried: &[u8; 4],
) -> Result<(), Refusal> {
    let r = on_tables!(
        mukthiban_tree_set_carried_dir, change tables,
        work.as_mut_ptr(), work.len(), inode, carried,
    );
    judge(r.answer)
}

/// Sets a file's 20 carried bytes.
pub fn set_carried_file(
    tables: &mut TablesMut<'_>,
    work: &mut [u32],
    inode: u32,
    carried: &[u8; 20],
) -> Result<(), Refusal> {
    let r = on_tables!(
        mukthiban_tree_set_carried_file, change tables,
        work.as_mut_ptr(), work.len(), inode, carried,
    );
    judge(r.answer)
}

// Open and close differ in the symbol alone.
macro_rules! open_or_close {
    ($(#[$doc:meta])* $name:ident, $call:ident) => {
        $(#[$doc])*
        pub fn $name(
            tables: Tables<'_>,
            work: &mut [u32],
            opens: &mut [u32],
            opened: &mut usize,
            inode: u32,
            want: Want,
        ) -> Result<(), Refusal> {
            let r = on_tables!(
                $call, read tables,
                work.as_mut_ptr(), work.len(), opens.as_mut_ptr(), opens.len(), opened, inode, want as u32,
            );
            judge(r.answer)
        }
    };
}

open_or_close!(
    /// Opens a directory once more, for a reader or for the writer.
    open_dir,
    mukthiban_tree_open_dir
);
open_or_close!(
    /// Opens a file once more, for a reader or for the writer.
    open_file,
    mukthiban_tree_open_file
);
open_or_close!(
    /// Gives back an open of a directory, a reader's or the writer's.
    close_dir,
    mukthiban_tree_close_dir
);
open_or_close!(
    /// Gives back an open of a file, a reader's or the writer's.
    close_file,
    mukthiban_tree_close_file
);
