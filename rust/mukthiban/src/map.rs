//! The free map beside a block table, call by call, over lent slices: one bit a block, the lowest block in the lowest
//! bit of a word, set where the block is free.
//!
//! [`create`], [`resize`] and [`delete`] do what the calls of [`fat`](crate::fat) do and keep the map, which always
//! equals one built afresh. A map that is not the table's is `BrokenFat`. Where many calls are made on one volume,
//! [`Volume`](crate::Volume) keeps a map itself.
//!
//! ```
//! use mukthiban::{fat, map, Refusal};
//! let (mut table, data) = ([0u8; 8 * 41], [0u8; 40 * 512]); // 40 blocks
//! let (mut work, mut free) = ([0u32; 40], [0u32; 2]);
//! fat::format(&mut table)?;
//! map::build(&table, &data, 512, &mut work, &mut free)?;
//! assert_eq!(free, [0xFFFF_FFFF, 0xFF]);
//!
//! let file = map::create(&mut table, &data, 512, &mut work, &mut free, 35)?;
//! assert_eq!(free, [0, 0xF8]);
//! assert_eq!(map::count(&free, 40, 30, 37)?, 2);
//! map::delete(&mut table, &data, 512, &mut work, &mut free, file)?;
//! assert_eq!(map::count(&free, 40, 0, 40)?, 40);
//!
//! // A call without the map leaves it behind.
//! fat::create(&mut table, &data, 512, &mut work, 1)?;
//! let again = map::create(&mut table, &data, 512, &mut work, &mut free, 1);
//! assert_eq!(again, Err(Refusal::BrokenFat));
//! # Ok::<(), Refusal>(())
//! ```

use crate::refusal::{judge, Refusal};
use mukthiban_ffi as ffi;

/// The words that a map of so many blocks has.
pub const fn words(blocks: usize) -> usize {
    blocks.div_ceil(32)
}

/// Builds the map of the table. Words past those of its blocks stay.
pub fn build(table: &[u8], data: &[u8], block_len: usize, work: &mut [u32], map: &mut [u32]) -> Result<(), Refusal> {
    // SAFETY: here and below, pointers and lengths are those of slices, and what is lent `&mut` overlaps nothing.
    let r = unsafe {
        ffi::mukthiban_map_build(
            table.as_ptr(),
            table.len(),
            data.as_ptr(),
            data.len(),
            block_len,
            work.as_mut_ptr(),
            work.len(),
            map.as_mut_ptr(),
            map.len(),
        )
    };
    judge(r.answer)
}

/// Makes a file of `block_count` blocks and answers its first block; the map loses them.
pub fn create(
    table: &mut [u8],
    data: &[u8],
    block_len: usize,
    work: &mut [u32],
    map: &mut [u32],
    block_count: usize,
) -> Result<usize, Refusal> {
    let r = unsafe {
        ffi::mukthiban_map_create(
            table.as_mut_ptr(),
            table.len(),
            data.as_ptr(),
            data.len(),
            block_len,
            work.as_mut_ptr(),
            work.len(),
            map.as_mut_ptr(),
            map.len(),
            block_count,
        )
    };
    judge(r.answer)?;
    Ok(r.first_block)
}

/// Grows or shrinks a file; the map loses or gets the blocks between.
pub fn resize(
    table: &mut [u8],
    data: &[u8],
    block_len: usize,
    work: &mut [u32],
    map: &mut [u32],
    first_block: usize,
    block_count: usize,
) -> Result<(), Refusal> {
    let r = unsafe {
        ffi::mukthiban_map_resize(
            table.as_mut_ptr(),
            table.len(),
            data.as_ptr(),
            data.len(),
            block_len,
            work.as_mut_ptr(),
            work.len(),
            map.as_mut_ptr(),
            map.len(),
            first_block,
            block_count,
        )
    };
    judge(r.answer)
}

/// Gives all blocks of a file back; the map gets them.
pub fn delete(
    table: &mut [u8],
    data: &[u8],
    block_len: usize,
    work: &mut [u32],
    map: &mut [u32],
    first_block: usize,
) -> Result<(), Refusal> {
    let r = unsafe {
        ffi::mukthiban_map_delete(
            table.as_mut_ptr(),
            table.len(),
            data.as_ptr(),
            data.len(),
            block_len,
            work.as_mut_ptr(),
            work.len(),
            map.as_mut_ptr(),
            map.len(),
            first_block,
        )
    };
    judge(r.answer)
}

/// Counts the set bits of a map of `n` blocks from block `a` up to and without block `b`, for the map that is given.
pub fn count(map: &[u32], n: usize, a: usize, b: usize) -> Result<usize, Refusal> {
    let r = unsafe { ffi::mukthiban_map_count(map.as_ptr(), map.len(), n, a, b) };
    judge(r.answer)?;
    Ok(r.free)
}
