//! One entry table of any bytes: which of its entries are live.

use super::{dirs, files};
use crate::tables::DIR_WIDTH;

pub(super) fn word(table: &[u8], at: usize) -> u32 {
    table.get(at..at + 4).map_or(0, |b| u32::from_le_bytes(b.try_into().expect("4 bytes")))
}

/// One entry table of any bytes.
pub(super) struct Table<'a> {
    pub bytes: &'a [u8],
    pub width: usize,
}

impl Table<'_> {
    pub fn room(&self) -> usize {
        (self.bytes.len() / self.width).min(65_536)
    }

    pub fn entry(&self, inode: usize) -> &[u8] {
        &self.bytes[inode * self.width..][..self.width]
    }

    pub fn count(&self) -> usize {
        (word(self.bytes, 0) as usize).min(self.room())
    }

    /// A word of an entry, by the byte at which it stands there.
    pub fn word(&self, inode: usize, at: usize) -> usize {
        word(self.entry(inode), at) as usize
    }

    pub fn collision(&self, inode: usize) -> usize {
        self.word(inode, self.width - 4)
    }

    /// For each inode whether it is live: those that the proved call lists. Where the removed list did not end on 0, and
    /// above the count, one that looks vacant is none.
    pub fn live(&self) -> Vec<bool> {
        let room = self.room();
        let (mut work, mut list) = (vec![0; room], vec![0; room]);
        let bytes = &self.bytes[..self.bytes.len().min(65_536 * self.width)];
        let count = match self.width {
            DIR_WIDTH => dirs(bytes, &mut work, &mut list),
            _ => files(bytes, &mut work, &mut list),
        };
        let mut live = vec![false; room];
        for &inode in &list[..count.unwrap_or(0)] {
            live[inode as usize] = true;
        }
        let ended = self.ended();
        for (inode, live) in live.iter_mut().enumerate().skip(1) {
            *live = match inode < self.count() {
                true => *live && (ended || !self.vacant(inode)),
                false => !self.vacant(inode),
            };
        }
        live
    }

    /// Whether the removed list ends on 0.
    fn ended(&self) -> bool {
        let mut at = if self.room() > 0 { self.collision(0) } else { 0 };
        for _ in 0..self.count() {
            match at {
                0 => return true,
                inside if inside < self.count() => at = self.collision(inside),
                _ => return false,
            }
        }
        at == 0
    }

    /// An entry that was never used, or has entry 0's maximum where a name begins and zeros behind it: a removed one, which
    /// the removed list may have lost.
    fn vacant(&self, inode: usize) -> bool {
        let (entry, max) = (self.entry(inode), word(self.bytes, 4));
        let zero = |from: usize, to: usize| entry[from..to].iter().all(|&b| b == 0);
        zero(0, self.width) || (word(entry, 4) == max && zero(8, self.width - 4))
    }
}
