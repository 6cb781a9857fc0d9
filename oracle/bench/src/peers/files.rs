//! Files with handles: a file's nodes and blocks are known once it is open, and a call touches what it changes. Over a block table that was tested.

use super::nodes::{head, node, set_head, set_next, set_node, set_prev};

/// A file that is open: its nodes as index and size, and how many blocks they are.
#[derive(Clone)]
pub struct Handle {
    nodes: Vec<(u32, u32)>,
    blocks: u32,
}

impl Handle {
    /// The file's first block.
    pub fn first(&self) -> usize {
        self.nodes[0].0 as usize - 1
    }
}

/// A table with its free blocks counted.
#[derive(Clone)]
pub struct Files {
    pub table: Vec<u8>,
    pub free: u32,
}

/// Takes so many blocks, which are there, from the front of the free chain: their nodes, linked to each other alone.
pub fn take(table: &mut [u8], mut count: u32) -> Vec<(u32, u32)> {
    let mut nodes = vec![];
    let mut at = head(table);
    let mut before = 0;
    loop {
        let (size, next) = node(table, at);
        if size <= count {
            count -= size;
            nodes.push((at, size));
            if count > 0 {
                (before, at) = (at, next);
                continue;
            }
            set_next(table, at, 0);
            if next != 0 {
                set_prev(table, next, 0);
            }
            set_head(table, next);
        } else {
            let right = at + count;
            set_node(table, at, count, before, 0);
            set_node(table, right, size - count, 0, next);
            if next != 0 {
                set_prev(table, next, right);
            }
            set_head(table, right);
            nodes.push((at, count));
        }
        return nodes;
    }
}

/// Puts a chain before the free front.
pub fn give(table: &mut [u8], first: u32, last: u32) {
    let front = head(table);
    set_next(table, last, front);
    if front != 0 {
        set_prev(table, front, last);
    }
    set_head(table, first);
}

/// Cuts a node so that `left` of its blocks stay, which may be none or all: what begins behind them. `before` is the node before it.
pub fn cut(table: &mut [u8], (at, size): (u32, u32), before: u32, left: u32) -> u32 {
    let (_, next) = node(table, at);
    if left == 0 {
        set_next(table, before, 0);
        set_prev(table, at, 0);
        return at;
    }
    let right = at + left;
    set_node(table, at, left, before, 0);
    set_node(table, right, size - left, 0, next);
    if next != 0 {
        set_prev(table, next, right);
    }
    right
}

impl Files {
    /// The handle of the file that begins at a block.
    pub fn open(&self, first: usize) -> Handle {
        let (mut nodes, mut blocks, mut at) = (vec![], 0, first as u32 + 1);
        while at != 0 {
            let (size, next) = node(&self.table, at);
            nodes.push((at, size));
            (blocks, at) = (blocks + size, next);
        }
        Handle { nodes, blocks }
    }

    /// None where there is no room.
    pub fn create(&mut self, count: u32) -> Option<Handle> {
        if self.free < count {
            return None;
        }
        self.free -= count;
        Some(Handle { nodes: take(&mut self.table, count), blocks: count })
    }

    pub fn resize(&mut self, handle: &mut Handle, count: u32) -> Option<()> {
        if count > handle.blocks {
            let more = count - handle.blocks;
            if self.free < more {
                return None;
            }
            let taken = take(&mut self.table, more);
            let (last, _) = *handle.nodes.last()?;
            set_next(&mut self.table, last, taken[0].0);
            set_prev(&mut self.table, taken[0].0, last);
            handle.nodes.extend(taken);
        } else if count < handle.blocks {
            self.shrink(handle, count)?;
        }
        self.free = self.free + handle.blocks - count;
        handle.blocks = count;
        Some(())
    }

    /// From the end on, to the node that is cut.
    fn shrink(&mut self, handle: &mut Handle, count: u32) -> Option<()> {
        let (last, _) = *handle.nodes.last()?;
        let (mut from, mut at) = (handle.blocks, handle.nodes.len());
        while from > count {
            at -= 1;
            from -= handle.nodes[at].1;
        }
        let before = if at == 0 { 0 } else { handle.nodes[at - 1].0 };
        let (index, size) = handle.nodes[at];
        let right = cut(&mut self.table, (index, size), before, count - from);
        let single = at + 1 == handle.nodes.len();
        give(&mut self.table, right, if single { right } else { last });
        handle.nodes.truncate(at);
        if count > from {
            handle.nodes.push((index, count - from));
        }
        Some(())
    }

    pub fn delete(&mut self, handle: Handle) {
        give(&mut self.table, handle.nodes[0].0, handle.nodes[handle.nodes.len() - 1].0);
        self.free += handle.blocks;
    }
}

/// Reads from position `pos` on of a file whose blocks are known; None past its end.
pub fn read(data: &[u8], block_len: usize, list: &[u32], mut pos: usize, mut buf: &mut [u8]) -> Option<()> {
    if list.len() * block_len < pos.checked_add(buf.len())? {
        return None;
    }
    while !buf.is_empty() {
        let (block, within) = (list[pos / block_len] as usize, pos % block_len);
        let count = buf.len().min(block_len - within);
        let (part, rest) = buf.split_at_mut(count);
        part.copy_from_slice(&data[block * block_len + within..][..count]);
        (buf, pos) = (rest, pos + count);
    }
    Some(())
}

/// Writes likewise.
pub fn write(data: &mut [u8], block_len: usize, list: &[u32], mut pos: usize, mut buf: &[u8]) -> Option<()> {
    if list.len() * block_len < pos.checked_add(buf.len())? {
        return None;
    }
    while !buf.is_empty() {
        let (block, within) = (list[pos / block_len] as usize, pos % block_len);
        let (part, rest) = buf.split_at(buf.len().min(block_len - within));
        data[block * block_len + within..][..part.len()].copy_from_slice(part);
        (buf, pos) = (rest, pos + part.len());
    }
    Some(())
}
