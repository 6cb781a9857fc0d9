//! Plans that make a file whole, over lent slices.
//!
//! A plan is a list of moves, two places each: a source block, then a target block. It is accepted for a file when its
//! sources are the file's blocks in file order, one move a block, and its targets are consecutive, rising and all free.
//! It may be anyone's: [`check`] decides, and [`apply`] takes none that it does not accept.
//!
//! ```
//! use mukthiban::{fat, plan, Refusal};
//! let (mut table, mut data, mut work) = ([0u8; 8 * 9], [0u8; 8 * 512], [0u32; 8]);
//! fat::format(&mut table)?;
//! let files = [1, 1, 1].map(|count| fat::create(&mut table, &data, 512, &mut work, count).unwrap());
//! fat::delete(&mut table, &data, 512, &mut work, files[0])?;
//! fat::resize(&mut table, &data, 512, &mut work, files[1], 2)?; // blocks 1 and 0
//!
//! let mut list = [0; 4];
//! let moves = plan::find(&table, &data, 512, &mut work, files[1], &mut list)?;
//! assert_eq!((moves, list), (2, [1, 3, 0, 4]));
//! let twice = [1, 3, 1, 4];
//! assert_eq!(plan::check(&table, &data, 512, &mut work, files[1], &twice), Err(Refusal::InvalidValue));
//! let first = plan::apply(&mut table, &mut data, 512, &mut work, files[1], &list)?;
//! let mut blocks = [0; 2];
//! fat::open_list(&table, &data, 512, &mut work, first, &mut blocks)?;
//! assert_eq!(blocks, [3, 4]);
//! # Ok::<(), Refusal>(())
//! ```

use crate::refusal::{judge, Refusal};
use mukthiban_ffi as ffi;

/// Whether a plan is accepted for the file; InvalidValue where it is not.
pub fn check(
    table: &[u8],
    data: &[u8],
    block_len: usize,
    work: &mut [u32],
    first_block: usize,
    plan: &[u32],
) -> Result<(), Refusal> {
    // SAFETY: here and below, pointers and lengths are those of slices, and what is lent `&mut` overlaps nothing.
    let r = unsafe {
        ffi::mukthiban_plan_check(
            table.as_ptr(),
            table.len(),
            data.as_ptr(),
            data.len(),
            block_len,
            work.as_mut_ptr(),
            work.len(),
            first_block,
            plan.as_ptr(),
            plan.len(),
        )
    };
    judge(r.answer)
}

/// Applies a plan: the file becomes one node at the targets, with the bytes that it had, and its old nodes go to the front
/// of the free chain. Answers its new first block. Refused as [`check`], it changes nothing.
pub fn apply(
    table: &mut [u8],
    data: &mut [u8],
    block_len: usize,
    work: &mut [u32],
    first_block: usize,
    plan: &[u32],
) -> Result<usize, Refusal> {
    let r = unsafe {
        ffi::mukthiban_plan_apply(
            table.as_mut_ptr(),
            table.len(),
            data.as_mut_ptr(),
            data.len(),
            block_len,
            work.as_mut_ptr(),
            work.len(),
            first_block,
            plan.as_ptr(),
            plan.len(),
        )
    };
    judge(r.answer)?;
    Ok(r.first_block)
}

/// Finds the plan to the lowest blocks of which enough are free in a row, and writes it to `list`. Answers how many moves
/// it has, two places each; later places stay. NoSpace where there is no such place, and only then ListTooShort.
pub fn find(
    table: &[u8],
    data: &[u8],
    block_len: usize,
    work: &mut [u32],
    first_block: usize,
    list: &mut [u32],
) -> Result<usize, Refusal> {
    let r = unsafe {
        ffi::mukthiban_plan_find(
            table.as_ptr(),
            table.len(),
            data.as_ptr(),
            data.len(),
            block_len,
            work.as_mut_ptr(),
            work.len(),
            first_block,
            list.as_mut_ptr(),
            list.len(),
        )
    };
    judge(r.answer)?;
    Ok(r.count)
}
