//! The tree of a volume as a list of entries, and paths in it.

use crate::name::joined;
use mukthiban::{Kind, Name, Record, Refusal, Volume, ROOT};
use std::ops::Range;
use std::rc::Rc;

/// A directory or a file of the tree.
pub struct Entry {
    pub kind: Kind,
    pub inode: u32,
    pub name: Name,
    /// The place of its directory in the list of entries; the root's is its own.
    pub parent: usize,
    /// A file's record; the empty one for a directory.
    pub record: Record,
    /// The chain that a file's record names, if it names one. Files that claim one chain share it.
    pub chain: Option<Rc<Chain>>,
    /// What is wrong with a file's record, by the places of the findings.
    pub faults: Vec<usize>,
    /// Where in the list of entries the things directly in it stand: directories first, by name.
    pub inside: Range<usize>,
}

impl Entry {
    fn new(kind: Kind, inode: u32, name: Name, parent: usize, record: Record) -> Entry {
        Entry { kind, inode, name, parent, record, chain: None, faults: Vec::new(), inside: 0..0 }
    }

    /// The root has a name of its own, of zeros alone.
    pub fn is_root(&self) -> bool {
        self.kind == Kind::Dir && self.inode == ROOT
    }

    /// A file's blocks in chain order.
    pub fn blocks(&self) -> &[u32] {
        self.chain.as_ref().map_or(&[], |c| &c.blocks)
    }

    /// The stretches of blocks that follow each other.
    pub fn pieces(&self) -> &[(u32, u32)] {
        self.chain.as_ref().map_or(&[], |c| &c.pieces)
    }
}

/// A chain of blocks.
pub struct Chain {
    pub blocks: Vec<u32>,
    /// Its stretches, each as its first block and its length.
    pub pieces: Vec<(u32, u32)>,
}

impl Chain {
    pub fn new(blocks: Vec<u32>) -> Chain {
        Chain { pieces: stretches(&blocks), blocks }
    }
}

/// The stretches of a block list, each as its first block and its length.
pub fn stretches(blocks: &[u32]) -> Vec<(u32, u32)> {
    let mut out: Vec<(u32, u32)> = Vec::new();
    for &b in blocks {
        match out.last_mut() {
            Some((first, len)) if *first + *len == b => *len += 1,
            _ => out.push((b, 1)),
        }
    }
    out
}

/// The path of an entry, as it is shown.
pub fn path_of(entries: &[Entry], mut at: usize) -> String {
    let mut names = Vec::new();
    while at != 0 {
        names.push(&entries[at].name);
        at = entries[at].parent;
    }
    joined(names.into_iter().rev())
}

/// Every live entry, by the library's own listings.
pub fn read_tree(volume: &Volume) -> Result<Vec<Entry>, Refusal> {
    let mut entries = vec![Entry::new(Kind::Dir, ROOT, [0; 16], 0, Record::EMPTY)];
    let mut at = 0;
    while at < entries.len() {
        if entries[at].kind == Kind::Dir {
            let inode = entries[at].inode;
            let (dirs, files) = (volume.list_dirs(inode)?, volume.list_files(inode)?);
            let first = entries.len();
            for (kind, inodes) in [(Kind::Dir, dirs), (Kind::File, files)] {
                for inode in inodes {
                    let name = *volume.name(kind, inode)?;
                    let record = match kind {
                        Kind::Dir => Record::EMPTY,
                        Kind::File => Record::of(&volume.carried_file(inode)?),
                    };
                    entries.push(Entry::new(kind, inode, name, at, record));
                }
            }
            entries[first..].sort_by_key(|e| (e.kind == Kind::File, e.name));
            entries[at].inside = first..entries.len();
        }
        at += 1;
    }
    Ok(entries)
}
