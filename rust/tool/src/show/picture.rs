//! What is where on a volume, for all that draw it.

use crate::salvaged::Broken;
use crate::session::Session;
use crate::tree::Chain;
use crate::words::{count, number};
use mukthiban::Kind;
use std::collections::HashMap;

/// The letters and digits that stand for files.
const SIGNS: &[u8] = b"abcdefghijklmnopqrstuvwxyzABCDEFGHIJKLMNOPQRSTUVWXYZ0123456789";

#[derive(Clone, Copy, PartialEq, Eq)]
pub enum Sort {
    /// A file's chain.
    File,
    /// All the smaller files, where there are more than signs.
    Rest,
    /// The chains that no file names.
    Lost,
}

/// Who owns blocks: a line of the legend, with its own sign.
pub struct Owner {
    pub sort: Sort,
    pub sign: char,
    pub label: String,
    pub size: Option<u64>,
    pub blocks: usize,
    pub pieces: Vec<(u32, u32)>,
}

impl Owner {
    fn new(sort: Sort, sign: char, label: String, size: Option<u64>, chains: &[&Chain]) -> Owner {
        let blocks = chains.iter().map(|c| c.blocks.len()).sum();
        Owner { sort, sign, label, size, blocks, pieces: chains.iter().flat_map(|c| c.pieces.clone()).collect() }
    }

    /// Bytes, blocks and fragments in words.
    pub fn words(&self) -> String {
        let blocks = count(self.blocks as u64, "block");
        let pieces = count(self.pieces.len() as u64, "fragment");
        match self.size {
            Some(size) => format!("{}, {blocks}, {pieces}", count(size, "byte")),
            None => format!("{blocks}, {pieces}"),
        }
    }
}

/// What is where on a volume.
pub struct Picture {
    pub title: String,
    pub block_len: usize,
    pub free: usize,
    /// The nodes of the free chain.
    pub free_nodes: Vec<(u32, u32)>,
    pub files: usize,
    pub fragments: usize,
    pub owners: Vec<Owner>,
    /// For each block 0 where it is free, else the place of its owner plus 1.
    pub of: Vec<u32>,
}

impl Picture {
    /// The picture of an open volume.
    pub fn take(title: String, session: &Session) -> Picture {
        let owners = owners(session);
        let mut of = vec![0; session.volume.blocks()];
        for (place, owner) in owners.iter().enumerate() {
            for &(first, blocks) in &owner.pieces {
                of[first as usize..(first + blocks) as usize].fill(place as u32 + 1);
            }
        }
        let files = || session.entries.iter().filter(|e| e.kind == Kind::File);
        Picture {
            title,
            block_len: session.volume.parts().block_len,
            free: session.volume.free(),
            free_nodes: session.volume.free_nodes(),
            files: files().count(),
            fragments: files().map(|e| e.pieces().len()).sum(),
            owners,
            of,
        }
    }

    /// The picture of a broken volume: its files as far as they could be followed, blocks that several claim, and blocks
    /// that nobody has.
    pub fn broken(title: String, broken: &Broken) -> Picture {
        let n = broken.parts.blocks();
        let mut claims = vec![0u8; n];
        let mut claim = |blocks: &[u32]| {
            for &b in blocks {
                claims[b as usize] = claims[b as usize].saturating_add(1);
            }
        };
        broken.salvage.files.iter().for_each(|f| claim(&f.blocks));
        broken.salvage.lost.iter().for_each(|l| claim(&l.blocks));
        claim(&broken.salvage.free);
        let several: Vec<u32> = (0..n as u32).filter(|&b| claims[b as usize] > 1).collect();
        let nobody: Vec<u32> = (0..n as u32).filter(|&b| claims[b as usize] == 0).collect();
        let mut files: Vec<_> = broken.salvage.files.iter().filter(|f| !f.blocks.is_empty()).collect();
        files.sort_by_key(|f| usize::MAX - f.blocks.len());
        let rest = if files.len() > SIGNS.len() { files.split_off(SIGNS.len() - 1) } else { Vec::new() };
        let mut owners: Vec<Owner> = files
            .iter()
            .zip(SIGNS)
            .map(|(f, sign)| {
                let doubt = f.doubt.map(|_| format!(" (in doubt: {})", broken.line(f))).unwrap_or_default();
                let label = broken.path(f) + &doubt;
                Owner::new(Sort::File, *sign as char, label, Some(f.record.size), &[&Chain::new(f.blocks.clone())])
            })
            .collect();
        let mut group = |sort: Sort, sign: char, label: String, chains: Vec<Vec<u32>>| {
            let chains: Vec<Chain> = chains.into_iter().filter(|c| !c.is_empty()).map(Chain::new).collect();
            if !chains.is_empty() {
                owners.push(Owner::new(sort, sign, label, None, &chains.iter().collect::<Vec<_>>()));
            }
        };
        let smaller = format!("{} smaller files", number(rest.len() as u64));
        group(Sort::Rest, '+', smaller, rest.iter().map(|f| f.blocks.clone()).collect());
        let lost = broken.salvage.lost.iter().map(|l| l.blocks.clone()).collect();
        group(Sort::Lost, '=', "lost chains".into(), lost);
        group(Sort::Lost, '!', "claimed by several".into(), vec![several]);
        group(Sort::Lost, '?', "no chain has them".into(), vec![nobody]);
        let mut of = vec![0; n];
        for (place, owner) in owners.iter().enumerate() {
            for &(first, blocks) in &owner.pieces {
                of[first as usize..(first + blocks) as usize].fill(place as u32 + 1);
            }
        }
        Picture {
            title,
            block_len: broken.salvage.block_len,
            free: broken.salvage.free.len(),
            free_nodes: crate::tree::stretches(&broken.salvage.free),
            files: broken.salvage.files.len(),
            fragments: broken.salvage.files.iter().map(|f| broken.pieces(f).len()).sum(),
            owners,
            of,
        }
    }

    /// Blocks in a cell, so that there are no more than so many cells.
    pub fn blocks_a_cell(&self, cells: usize) -> usize {
        self.of.len().div_ceil(cells).max(1)
    }

    /// The owner of most of a range of blocks; 0 where most are free.
    pub fn main_owner(&self, first: usize, per: usize) -> u32 {
        let range = &self.of[first..(first + per).min(self.of.len())];
        let mut sorted = range.to_vec();
        sorted.sort_unstable();
        let most = sorted.chunk_by(|a, b| a == b).max_by_key(|run| (run.len(), run[0]));
        most.map_or(0, |run| run[0])
    }

    /// One line about all of it.
    pub fn summary(&self) -> String {
        format!(
            "{} of {}, {} free; {} in {}",
            count(self.of.len() as u64, "block"),
            count(self.block_len as u64, "byte"),
            number(self.free as u64),
            count(self.files as u64, "file"),
            count(self.fragments as u64, "fragment")
        )
    }
}

/// The lines of the legend. Where there are more files than signs, the largest have one each and the others one
/// together.
fn owners(session: &Session) -> Vec<Owner> {
    let mut claims: HashMap<u32, usize> = HashMap::new();
    let mut files: Vec<usize> = Vec::new();
    for (e, entry) in session.entries.iter().enumerate().filter(|(_, e)| !e.blocks().is_empty()) {
        let claimed = claims.entry(entry.blocks()[0]).or_default();
        if *claimed == 0 {
            files.push(e);
        }
        *claimed += 1;
    }
    files.sort_by_key(|&e| (usize::MAX - session.entries[e].blocks().len(), session.entries[e].blocks()[0]));
    let rest = if files.len() > SIGNS.len() { files.split_off(SIGNS.len() - 1) } else { Vec::new() };
    files.sort_by_key(|&e| session.entries[e].blocks()[0]);

    let chain = |e: usize| session.entries[e].chain.as_deref().expect("it has blocks");
    let mut owners = Vec::new();
    for (&e, sign) in files.iter().zip(SIGNS) {
        let label = match claims[&session.entries[e].blocks()[0]] {
            1 => session.path(e),
            n => format!("{} and {} more that claim it", session.path(e), number(n as u64 - 1)),
        };
        owners.push(Owner::new(Sort::File, *sign as char, label, Some(session.entries[e].record.size), &[chain(e)]));
    }
    if !rest.is_empty() {
        let chains: Vec<&Chain> = rest.iter().map(|&e| chain(e)).collect();
        owners.push(Owner::new(Sort::Rest, '+', format!("{} smaller files", number(rest.len() as u64)), None, &chains));
    }
    let lost: Vec<&Chain> = session.account.lost.iter().map(|l| &l.chain).collect();
    let label = match lost.len() {
        0 => return owners,
        1 => format!("lost chain from block {}", session.account.lost[0].first_block),
        n => format!("{} lost chains", number(n as u64)),
    };
    owners.push(Owner::new(Sort::Lost, '?', label, None, &lost));
    owners
}
