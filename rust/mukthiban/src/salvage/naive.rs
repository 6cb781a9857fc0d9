//! A reading without checks, as a script would have it: what the salvage is measured against, and what is shown of a
//! chain behind the place where it is cut.

use super::entries::{Entries, Way};
use crate::parts::Parts;
use crate::record::Record;
use crate::tables::{Name, FILE_WIDTH, ROOT};

const TOP: u32 = 1 << 31;

/// The blocks that the links name from a block on, each node's size as its entries say it, until there are enough, no next
/// is named, or there is no such block.
pub(super) fn blocks(table: &[u8], first: u32, need: u64) -> Vec<u32> {
    let n = (table.len() / 8).saturating_sub(1);
    let word = |entry: usize, at: usize| {
        u32::from_le_bytes(table[8 * entry + at..8 * entry + at + 4].try_into().expect("4 bytes"))
    };
    let (mut out, mut at) = (Vec::new(), first as usize);
    while at < n && (out.len() as u64) < need && out.len() <= n {
        let v = word(at + 1, 4);
        let end = match v >= TOP && at + 2 <= n {
            true => (word(at + 2, 4) as usize).clamp(at + 1, n),
            false => at + 1,
        };
        out.extend((at as u32..end as u32).take((need - out.len() as u64) as usize));
        match (v % TOP).checked_sub(1) {
            Some(next) => at = next as usize,
            None => break,
        }
    }
    out
}

/// A file as the naive reading has it.
#[derive(Clone, Debug)]
pub struct NaiveFile {
    /// Its directories' names and its own.
    pub path: Vec<Name>,
    /// Its bytes.
    pub bytes: Vec<u8>,
}

/// Every entry of the file table with a parent and a name, no bucket looked at, and its chain followed with no check.
pub fn naive(parts: &Parts) -> Vec<NaiveFile> {
    let entries = Entries::read(parts.tables());
    let mut files = Vec::new();
    for entry in parts.file_table.chunks_exact(FILE_WIDTH).skip(1) {
        let parent = u32::from_le_bytes(entry[..4].try_into().expect("4 bytes"));
        let name: Name = entry[4..20].try_into().expect("16 bytes");
        let record = Record::of(entry[24..44].try_into().expect("20 bytes"));
        let Way::Root(way) = entries.way(parent) else { continue };
        if name == [0; 16] || parent < ROOT {
            continue;
        }
        let mut path: Vec<Name> = way.iter().map(|&d| entries.dir_name(d)).collect();
        path.push(name);
        let need = record.blocks(parts.block_len).min(1 << 20);
        let mut bytes = Vec::new();
        for block in blocks(&parts.fat, record.first_block, need) {
            let from = (block as usize * parts.block_len).min(parts.data.len());
            bytes.extend(&parts.data[from..(from + parts.block_len).min(parts.data.len())]);
        }
        bytes.truncate(usize::try_from(record.size).unwrap_or(usize::MAX));
        files.push(NaiveFile { path, bytes });
    }
    files
}
