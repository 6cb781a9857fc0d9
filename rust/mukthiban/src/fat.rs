//! The block table, call by call, over lent slices.
//!
//! Each call tests the whole table before it does anything, so it may be handed any bytes. A work list has a place for
//! each block. Where many calls are made on one volume, [`Volume`](crate::Volume) tests once.
//!
//! ```
//! use mukthiban::{fat, Refusal};
//! let mut table = [0u8; 8 * 5]; // 4 blocks
//! let mut data = [0u8; 4 * 512];
//! let mut work = [0u32; 4];
//! fat::format(&mut table)?;
//!
//! let file = fat::create(&mut table, &data, 512, &mut work, 3)?;
//! fat::write(&table, &mut data, 512, &mut work, file, 507, b"saved game")?;
//! let mut back = [0; 10];
//! fat::read(&table, &data, 512, &mut work, file, 507, &mut back)?;
//! assert_eq!(&back, b"saved game");
//!
//! let tested = fat::test(&table, &mut work)?;
//! assert_eq!((tested.free, tested.files), (1, 1));
//! assert_eq!(fat::create(&mut table, &data, 512, &mut work, 2), Err(Refusal::NoSpace));
//! # Ok::<(), Refusal>(())
//! ```

use crate::refusal::{judge, Refusal};
use mukthiban_ffi as ffi;

/// The most blocks that a block table has.
pub const MAX_BLOCKS: usize = 1_000_000;

/// The longest block, in bytes. Only [`BLOCK_LENS`] are in use.
pub const MAX_BLOCK_LEN: usize = 65_536;

/// The block lengths in use. With any other a volume can be read, and every call that would change it is refused with
/// `ReadOnlyVolume`: after the tests, and before the call's own refusals.
///
/// ```
/// use mukthiban::{fat, Refusal};
/// let (mut table, data, mut work) = ([0u8; 8 * 5], [0u8; 4 * 16], [0u32; 4]);
/// fat::format(&mut table)?;
/// assert_eq!(fat::create(&mut table, &data, 16, &mut work, 0), Err(Refusal::ReadOnlyVolume));
/// # Ok::<(), Refusal>(())
/// ```
pub const BLOCK_LENS: [usize; 2] = [512, 4_096];

/// What the test counts.
#[derive(Clone, Copy, Debug, PartialEq, Eq)]
pub struct Tested {
    /// Blocks in the free chain.
    pub free: usize,
    /// Chains other than the free one.
    pub files: usize,
}

/// Where a block table is broken: an entry of it, and the first rule that does not hold (RULES 3.6). Entry 0 is the head,
/// entry b + 1 belongs to block b.
#[derive(Clone, Copy, Debug, PartialEq, Eq)]
pub struct Fault {
    /// The entry that is blamed.
    pub entry: usize,
    /// The rule, 1 to 7.
    pub rule: u32,
}

impl Fault {
    /// What the rule says, as the fault of the entry.
    pub fn meaning(self) -> &'static str {
        match self.rule {
            1 => "a node's first entry has an index and the mark of none before it, or neither",
            2 => "a node of several blocks begins at the last block",
            3 => "a node's second entry does not have its form",
            4 => "a node's second entry puts its end past the last block",
            5 => "a node's last entry does not hold what its second holds",
            6 => "the head does not have its form, or names what is no chain's first node",
            _ => "a link of the node is not named back, or the node lies in a ring",
        }
    }
}

/// Makes one free node of all blocks.
///
/// ```
/// let mut table = [0u8; 16]; // one block
/// mukthiban::fat::format(&mut table)?;
/// assert_eq!(table, [0, 0, 0, 0, 1, 0, 0, 0, 0, 0, 0, 0x80, 0, 0, 0, 0]);
/// # Ok::<(), mukthiban::Refusal>(())
/// ```
pub fn format(table: &mut [u8]) -> Result<(), Refusal> {
    // SAFETY: here and below, pointers and lengths are those of slices, and what is lent `&mut` overlaps nothing.
    judge(unsafe { ffi::mukthiban_fat_format(table.as_mut_ptr(), table.len()) }.answer)
}

/// Tests whether the table is sound; counts its free blocks and its files.
pub fn test(table: &[u8], work: &mut [u32]) -> Result<Tested, Refusal> {
    let r = unsafe { ffi::mukthiban_fat_test(table.as_ptr(), table.len(), work.as_mut_ptr(), work.len()) };
    judge(r.answer)?;
    Ok(Tested { free: r.free, files: r.files })
}

/// Says where a table is broken, or nothing of one that is sound. Refused for its sizes and its work list alone.
///
/// ```
/// use mukthiban::fat::{self, Fault};
/// let (mut table, mut work) = ([0u8; 8 * 5], [0u32; 4]);
/// fat::format(&mut table)?;
/// assert_eq!(fat::fault(&table, &mut work), Ok(None));
/// table[8 * 4 + 4] = 3; // the node's last entry says another end than its second
/// assert_eq!(fat::fault(&table, &mut work), Ok(Some(Fault { entry: 4, rule: 5 })));
/// # Ok::<(), mukthiban::Refusal>(())
/// ```
pub fn fault(table: &[u8], work: &mut [u32]) -> Result<Option<Fault>, Refusal> {
    let r = unsafe { ffi::mukthiban_fat_test(table.as_ptr(), table.len(), work.as_mut_ptr(), work.len()) };
    match judge(r.answer) {
        Err(Refusal::BrokenFat) => Ok(Some(Fault { entry: r.entry, rule: r.rule })),
        other => other.map(|()| None),
    }
}

/// Writes the file's blocks to `list`, in chain order, and answers how many they are.
pub fn open_list(
    table: &[u8],
    data: &[u8],
    block_len: usize,
    work: &mut [u32],
    first_block: usize,
    list: &mut [u32],
) -> Result<usize, Refusal> {
    let r = unsafe {
        ffi::mukthiban_fat_open_list(
            table.as_ptr(),
            table.len(),
            data.as_ptr(),
            data.len(),
            block_len,
            work.as_mut_ptr(),
            work.len(),
            first_block,
            list.as_mut_ptr(),
            list.len(),
        )
    };
    judge(r.answer)?;
    Ok(r.count)
}

/// Makes a file of `block_count` blocks and answers its first block.
pub fn create(
    table: &mut [u8],
    data: &[u8],
    block_len: usize,
    work: &mut [u32],
    block_count: usize,
) -> Result<usize, Refusal> {
    let r = unsafe {
        ffi::mukthiban_fat_create(
            table.as_mut_ptr(),
            table.len(),
            data.as_ptr(),
            data.len(),
            block_len,
            work.as_mut_ptr(),
            work.len(),
            block_count,
        )
    };
    judge(r.answer)?;
    Ok(r.first_block)
}

/// Grows or shrinks the file to `block_count` blocks. Its first block stays.
pub fn resize(
    table: &mut [u8],
    data: &[u8],
    block_len: usize,
    work: &mut [u32],
    first_block: usize,
    block_count: usize,
) -> Result<(), Refusal> {
    let r = unsafe {
        ffi::mukthiban_fat_resize(
            table.as_mut_ptr(),
            table.len(),
            data.as_ptr(),
            data.len(),
            block_len,
            work.as_mut_ptr(),
            work.len(),
            first_block,
            block_count,
        )
    };
    judge(r.answer)
}

/// Gives all blocks of the file back.
pub fn delete(
    table: &mut [u8],
    data: &[u8],
    block_len: usize,
    work: &mut [u32],
    first_block: usize,
) -> Result<(), Refusal> {
    let r = unsafe {
        ffi::mukthiban_fat_delete(
            table.as_mut_ptr(),
            table.len(),
            data.as_ptr(),
            data.len(),
            block_len,
            work.as_mut_ptr(),
            work.len(),
            first_block,
        )
    };
    judge(r.answer)
}

/// Merges free neighbours: the free chain becomes the longest stretches of free blocks, rising, so that no two of its
/// nodes touch. Every file and the number of free blocks stay; a second call changes nothing. Takes no data, and the block
/// length to refuse those that are not in use.
///
/// ```
/// use mukthiban::{fat, Refusal};
/// let (mut table, data, mut work) = ([0u8; 8 * 5], [0u8; 4 * 512], [0u32; 4]);
/// fat::format(&mut table)?;
/// let files = [1, 1, 2].map(|count| fat::create(&mut table, &data, 512, &mut work, count).unwrap());
/// for file in files {
///     fat::delete(&mut table, &data, 512, &mut work, file)?; // the free chain is now 2-3, 1, 0
/// }
/// fat::merge(&mut table, 512, &mut work)?;
///
/// let mut fresh = table;
/// fat::format(&mut fresh)?;
/// assert_eq!(table, fresh);
/// # Ok::<(), Refusal>(())
/// ```
pub fn merge(table: &mut [u8], block_len: usize, work: &mut [u32]) -> Result<(), Refusal> {
    let (at, len) = (table.as_mut_ptr(), table.len());
    let r = unsafe { ffi::mukthiban_fat_merge(at, len, block_len, work.as_mut_ptr(), work.len()) };
    judge(r.answer)
}

/// Reads `buf.len()` bytes of the file from `pos` on.
pub fn read(
    table: &[u8],
    data: &[u8],
    block_len: usize,
    work: &mut [u32],
    first_block: usize,
    pos: usize,
    buf: &mut [u8],
) -> Result<(), Refusal> {
    let r = unsafe {
        ffi::mukthiban_fat_read(
            table.as_ptr(),
            table.len(),
            data.as_ptr(),
            data.len(),
            block_len,
            work.as_mut_ptr(),
            work.len(),
            first_block,
            pos,
            buf.as_mut_ptr(),
            buf.len(),
        )
    };
    judge(r.answer)
}

/// Writes `buf` to the file from `pos` on.
pub fn write(
    table: &[u8],
    data: &mut [u8],
    block_len: usize,
    work: &mut [u32],
    first_block: usize,
    pos: usize,
    buf: &[u8],
) -> Result<(), Refusal> {
    let r = unsafe {
        ffi::mukthiban_fat_write(
            table.as_ptr(),
            table.len(),
            data.as_mut_ptr(),
            data.len(),
            block_len,
            work.as_mut_ptr(),
            work.len(),
            first_block,
            pos,
            buf.as_ptr(),
            buf.len(),
        )
    };
    judge(r.answer)
}

/// Reads `buf.len()` bytes from `pos` on of what a block list names, as [`open_list`] gave it. Only the blocks that the
/// bytes lie in are looked at, so that a read costs nothing of the file's length.
///
/// ```
/// use mukthiban::{fat, Refusal};
/// let mut data = [0u8; 4 * 512];
/// fat::write_blocks(&mut data, 512, &[3, 1], 510, b"over")?;
/// let mut back = [0; 4];
/// fat::read_blocks(&data, 512, &[3, 1], 510, &mut back)?;
/// assert_eq!(&back, b"over");
/// assert_eq!(&data[512..514], b"er");
/// assert_eq!(fat::read_blocks(&data, 512, &[3, 1], 1021, &mut back), Err(Refusal::OutOfBound));
/// assert_eq!(fat::read_blocks(&data, 512, &[3, 4], 510, &mut back), Err(Refusal::InvalidValue));
/// # Ok::<(), Refusal>(())
/// ```
pub fn read_blocks(data: &[u8], block_len: usize, list: &[u32], pos: usize, buf: &mut [u8]) -> Result<(), Refusal> {
    let r = unsafe {
        ffi::mukthiban_fat_read_blocks(
            data.as_ptr(),
            data.len(),
            block_len,
            list.as_ptr(),
            list.len(),
            pos,
            buf.as_mut_ptr(),
            buf.len(),
        )
    };
    judge(r.answer)
}

/// Writes `buf` from `pos` on into what a block list names, byte after byte: where it names a block twice, the later byte
/// stays. Refused as [`read_blocks`] is, and after the sizes with `ReadOnlyVolume` where the block length is not in use.
pub fn write_blocks(data: &mut [u8], block_len: usize, list: &[u32], pos: usize, buf: &[u8]) -> Result<(), Refusal> {
    let r = unsafe {
        ffi::mukthiban_fat_write_blocks(
            data.as_mut_ptr(),
            data.len(),
            block_len,
            list.as_ptr(),
            list.len(),
            pos,
            buf.as_ptr(),
            buf.len(),
        )
    };
    judge(r.answer)
}
