//! Read and write by a block list that was opened once.

use crate::answer::Answer::*;
use crate::answer::{refuse, Outcome};
use crate::blocks::{in_use, MOST_BLOCKS, MOST_BLOCK_LEN};

/// Rows 1 and 2: the number of blocks.
fn sizes(data_len: usize, block_len: usize) -> Outcome<usize> {
    let n = data_len.checked_div(block_len).unwrap_or(0);
    refuse(n * block_len != data_len, SizeMismatch)?;
    refuse(block_len < 1 || block_len > MOST_BLOCK_LEN || n < 1 || n > MOST_BLOCKS, InvalidValue)?;
    Ok(n)
}

/// Where each byte of a read or write of `len` bytes at `pos` stands in data of n blocks.
fn places(n: usize, block_len: usize, list: &[u32], pos: usize, len: usize) -> Outcome<Vec<usize>> {
    refuse(pos as u128 + len as u128 > list.len() as u128 * block_len as u128, OutOfBound)?;
    let block = |at: usize| list[at / block_len] as usize;
    refuse((pos..pos + len).any(|at| block(at) >= n), InvalidValue)?;
    Ok((pos..pos + len).map(|at| block(at) * block_len + at % block_len).collect())
}

/// Reads bytes of the listed blocks.
pub fn read_blocks(data: &[u8], block_len: usize, list: &[u32], pos: usize, buf: &mut [u8]) -> Outcome<()> {
    let n = sizes(data.len(), block_len)?;
    let from = places(n, block_len, list, pos, buf.len())?;
    for (byte, place) in buf.iter_mut().zip(from) {
        *byte = data[place];
    }
    Ok(())
}

/// Writes bytes into the listed blocks, one after the other.
pub fn write_blocks(data: &mut [u8], block_len: usize, list: &[u32], pos: usize, buf: &[u8]) -> Outcome<()> {
    let n = sizes(data.len(), block_len)?;
    in_use(block_len)?;
    let to = places(n, block_len, list, pos, buf.len())?;
    for (byte, place) in buf.iter().zip(to) {
        data[place] = *byte;
    }
    Ok(())
}
