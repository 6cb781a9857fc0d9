//! Both layers together, over lent slices.
//!
//! A call tests the block table and then the four entry tables before it does anything, so it may be handed any bytes.
//! A work list has a place for each block and for each entry of both tables.

use crate::refusal::{judge, Refusal};
use crate::tables::Tables;
use mukthiban_ffi as ffi;

/// Where a file's record and the chains of the block table disagree, or a chain has no file (RULES 6.16). A file of
/// size 0 has no finding and names no chain, whatever its block field says.
#[derive(Clone, Copy, Debug, PartialEq, Eq, Hash)]
pub enum Finding {
    /// Kind 1: the file's block is no file chain's first.
    Astray {
        /// The file's inode.
        inode: u32,
    },
    /// Kind 2: a file of lower inode names the same chain.
    Shared {
        /// The file's inode; the other one's is lower.
        inode: u32,
    },
    /// Kind 3: the file's size is over what its chain's blocks hold.
    Over {
        /// The file's inode.
        inode: u32,
    },
    /// Kind 4: no file names the chain.
    Lost {
        /// The chain's first block.
        first_block: u32,
    },
}

impl Finding {
    /// The finding that two places of a list say, as [`audit`] writes them. None of a kind that there is not.
    pub fn of(kind: u32, number: u32) -> Option<Finding> {
        match kind {
            1 => Some(Finding::Astray { inode: number }),
            2 => Some(Finding::Shared { inode: number }),
            3 => Some(Finding::Over { inode: number }),
            4 => Some(Finding::Lost { first_block: number }),
            _ => None,
        }
    }

    /// The file's inode; none for a lost chain.
    pub fn inode(self) -> Option<u32> {
        match self {
            Finding::Astray { inode } | Finding::Shared { inode } | Finding::Over { inode } => Some(inode),
            Finding::Lost { .. } => None,
        }
    }

    /// The rules' number of its kind, 1 to 4.
    pub fn kind(self) -> u32 {
        match self {
            Finding::Astray { .. } => 1,
            Finding::Shared { .. } => 2,
            Finding::Over { .. } => 3,
            Finding::Lost { .. } => 4,
        }
    }
}

/// Writes where records and chains disagree to `list`, two places for each finding, kind then number, and answers how
/// many findings there are. Files come in the order of their inodes, then lost chains by their first blocks. The list is
/// complete, and says each thing once. `ListTooShort` leaves it alone.
///
/// ```
/// use mukthiban::volume::{audit, Finding};
/// use mukthiban::{fat, tree, tree::TablesMut, Record, Refusal, ROOT};
/// let (mut table, data) = ([0u8; 8 * 5], [0u8; 4 * 512]);
/// let (mut dir_hash, mut dir_table) = ([0u8; 4 * 3], [0u8; 40 * 2]);
/// let (mut file_hash, mut file_table) = ([0u8; 4 * 3], [0u8; 48 * 3]);
/// let (mut work, mut opens, mut opened) = ([0u32; 4 + 2 + 3], [0u32; 4], 0);
/// let mut tables = TablesMut {
///     dir_hash: &mut dir_hash,
///     dir_table: &mut dir_table,
///     file_hash: &mut file_hash,
///     file_table: &mut file_table,
/// };
/// fat::format(&mut table)?;
/// tree::format(&mut tables, 2, 3)?;
/// let first_block = fat::create(&mut table, &data, 512, &mut work, 2)? as u32;
/// let lost = fat::create(&mut table, &data, 512, &mut work, 1)? as u32;
///
/// // Two files claim one chain, which is a byte too short for the second.
/// for (name, size) in [(b"one\0\0\0\0\0\0\0\0\0\0\0\0\0", 1024), (b"two\0\0\0\0\0\0\0\0\0\0\0\0\0", 1025)] {
///     let mut carried = [0; 20];
///     Record { first_block, size }.put(&mut carried);
///     tree::make_file(&mut tables, &mut work, &mut opens, &mut opened, ROOT, name, &carried)?;
/// }
/// let mut list = [0; 6];
/// assert_eq!(audit(&table, &data, 512, tables.shared(), &mut work, &mut list)?, 3);
/// assert_eq!(list, [2, 2, 3, 2, 4, lost]);
/// assert_eq!(Finding::of(list[0], list[1]), Some(Finding::Shared { inode: 2 }));
///
/// let short = audit(&table, &data, 512, tables.shared(), &mut work, &mut list[..5]);
/// assert_eq!(short, Err(Refusal::ListTooShort));
/// # Ok::<(), Refusal>(())
/// ```
pub fn audit(
    table: &[u8],
    data: &[u8],
    block_len: usize,
    tables: Tables<'_>,
    work: &mut [u32],
    list: &mut [u32],
) -> Result<usize, Refusal> {
    // SAFETY: pointers and lengths are those of slices, and what is lent `&mut` overlaps nothing.
    let r = unsafe {
        ffi::mukthiban_volume_audit(
            table.as_ptr(),
            table.len(),
            data.as_ptr(),
            data.len(),
            block_len,
            tables.dir_hash.as_ptr(),
            tables.dir_hash.len(),
            tables.dir_table.as_ptr(),
            tables.dir_table.len(),
            tables.file_hash.as_ptr(),
            tables.file_hash.len(),
            tables.file_table.as_ptr(),
            tables.file_table.len(),
            work.as_mut_ptr(),
            work.len(),
            list.as_mut_ptr(),
            list.len(),
        )
    };
    judge(r.answer)?;
    Ok(r.count)
}
