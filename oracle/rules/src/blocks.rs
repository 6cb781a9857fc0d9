//! "Block table": the eight calls.

use crate::answer::Answer::*;
use crate::answer::{refuse, Outcome};
use crate::layout::{block_count, cut, join, lay, lay_free};

pub use crate::layout::{blocks, lay_out, layout, listed, set_node, Chain, Layout, Run};

pub const MOST_BLOCKS: usize = 1_000_000;
pub const MOST_BLOCK_LEN: usize = 65_536;

/// The block lengths in use. A volume with another can be read and not be changed.
pub const BLOCK_LENS: [usize; 2] = [512, 4096];

// The rows that all block calls share.

/// Data and block length, which every call but format and the test takes.
#[derive(Clone, Copy)]
pub(crate) struct Volume {
    pub(crate) data_len: usize,
    pub(crate) block_len: usize,
}

/// Rows 1 and 2 for a block table, and for its data where the call takes them: n.
pub(crate) fn sizes(table: &[u8], volume: Option<Volume>) -> Outcome<usize> {
    refuse(table.len() < 8 || table.len() % 8 != 0, SizeMismatch)?;
    let n = block_count(table);
    if let Some(v) = volume {
        let fits = v.data_len as u128 == n as u128 * v.block_len as u128;
        refuse(!fits, SizeMismatch)?;
    }
    refuse(n < 1 || n > MOST_BLOCKS, InvalidValue)?;
    if let Some(v) = volume {
        refuse(v.block_len < 1 || v.block_len > MOST_BLOCK_LEN, InvalidValue)?;
    }
    Ok(n)
}

/// Sizes, work list, soundness. Once the sizes and the work list have passed, the first n work places are 0.
pub(crate) fn gate(table: &[u8], volume: Option<Volume>, work: &mut [u32]) -> Outcome<Layout> {
    let n = sizes(table, volume)?;
    refuse(work.len() < n, WorkTooShort)?;
    work[..n].fill(0);
    layout(table).ok_or(BrokenFat)
}

/// The row of a call that changes the table or the data: after soundness, before the call's own.
pub(crate) fn in_use(block_len: usize) -> Outcome<()> {
    refuse(!BLOCK_LENS.contains(&block_len), ReadOnlyVolume)
}

/// "The given block is the first block of a chain other than the free one": that chain.
pub(crate) fn file(layout: &Layout, first_block: usize) -> Outcome<&Chain> {
    let named = |chain: &&Chain| chain[0].start == first_block;
    layout.files.iter().find(named).ok_or(NotAFile)
}

// The calls.

#[derive(Clone, Copy, PartialEq, Eq, Debug)]
pub struct Tested {
    pub free: usize,
    pub files: usize,
}

/// Format makes one free node of n blocks.
pub fn format(table: &mut [u8]) -> Outcome<()> {
    let n = sizes(table, None)?;
    lay_free(table, &[Run { start: 0, size: n }]);
    Ok(())
}

/// The test answers the free blocks and the number of other chains.
pub fn test(table: &[u8], work: &mut [u32]) -> Outcome<Tested> {
    let layout = gate(table, None, work)?;
    Ok(Tested {
        free: blocks(&layout.free),
        files: layout.files.len(),
    })
}

/// Open list gives the blocks in chain order, and their count.
pub fn open_list(
    table: &[u8],
    data: &[u8],
    block_len: usize,
    work: &mut [u32],
    first_block: usize,
    list: &mut [u32],
) -> Outcome<usize> {
    let volume = Volume { data_len: data.len(), block_len };
    let layout = gate(table, Some(volume), work)?;
    let answer = listed(file(&layout, first_block)?);
    refuse(list.len() < answer.len(), ListTooShort)?;
    for (place, block) in list.iter_mut().zip(&answer) {
        *place = *block as u32;
    }
    Ok(answer.len())
}

/// Create answers the first block of the new file.
pub fn create(
    table: &mut [u8],
    data: &[u8],
    block_len: usize,
    work: &mut [u32],
    block_count: usize,
) -> Outcome<usize> {
    let volume = Volume { data_len: data.len(), block_len };
    let layout = gate(table, Some(volume), work)?;
    in_use(block_len)?;
    refuse(block_count == 0, InvalidValue)?;
    refuse(blocks(&layout.free) < block_count, NoSpace)?;
    let (taken, left) = cut(&layout.free, block_count);
    lay(table, &taken);
    lay_free(table, &left);
    Ok(taken[0].start)
}

/// Grows a file behind its last node or cuts it after the wanted count.
pub fn resize(
    table: &mut [u8],
    data: &[u8],
    block_len: usize,
    work: &mut [u32],
    first_block: usize,
    block_count: usize,
) -> Outcome<()> {
    let volume = Volume { data_len: data.len(), block_len };
    let layout = gate(table, Some(volume), work)?;
    in_use(block_len)?;
    let chain = file(&layout, first_block)?;
    refuse(block_count == 0, InvalidValue)?;
    let present = blocks(chain);
    if block_count > present {
        let more = block_count - present;
        refuse(blocks(&layout.free) < more, NoSpace)?;
        let (taken, left) = cut(&layout.free, more);
        lay(table, &join(chain, &taken));
        lay_free(table, &left);
    } else if block_count < present {
        let (kept, given) = cut(chain, block_count);
        lay(table, &kept);
        lay_free(table, &join(&given, &layout.free));
    }
    Ok(())
}

/// Delete puts the whole file before the free front.
pub fn delete(
    table: &mut [u8],
    data: &[u8],
    block_len: usize,
    work: &mut [u32],
    first_block: usize,
) -> Outcome<()> {
    let volume = Volume { data_len: data.len(), block_len };
    let layout = gate(table, Some(volume), work)?;
    in_use(block_len)?;
    let chain = file(&layout, first_block)?;
    lay_free(table, &join(chain, &layout.free));
    Ok(())
}

/// Where each byte of a read or write of `len` bytes at `pos` stands in the data.
fn places(chain: &[Run], block_len: usize, pos: usize, len: usize) -> Outcome<Vec<usize>> {
    let end = blocks(chain) as u128 * block_len as u128;
    refuse(pos as u128 + len as u128 > end, OutOfBound)?;
    let list = listed(chain);
    let place = |at: usize| list[at / block_len] * block_len + at % block_len;
    Ok((pos..pos + len).map(place).collect())
}

pub fn read(
    table: &[u8],
    data: &[u8],
    block_len: usize,
    work: &mut [u32],
    first_block: usize,
    pos: usize,
    buf: &mut [u8],
) -> Outcome<()> {
    let volume = Volume { data_len: data.len(), block_len };
    let layout = gate(table, Some(volume), work)?;
    let from = places(file(&layout, first_block)?, block_len, pos, buf.len())?;
    for (byte, place) in buf.iter_mut().zip(from) {
        *byte = data[place];
    }
    Ok(())
}

pub fn write(
    table: &[u8],
    data: &mut [u8],
    block_len: usize,
    work: &mut [u32],
    first_block: usize,
    pos: usize,
    buf: &[u8],
) -> Outcome<()> {
    let volume = Volume { data_len: data.len(), block_len };
    let layout = gate(table, Some(volume), work)?;
    in_use(block_len)?;
    let to = places(file(&layout, first_block)?, block_len, pos, buf.len())?;
    for (byte, place) in buf.iter().zip(to) {
        data[place] = *byte;
    }
    Ok(())
}
