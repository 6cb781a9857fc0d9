//! What the audit means to a person: what is wrong with which file, and what is only remarkable.

use crate::tree::{path_of, Chain, Entry};
use crate::words::{count, number};
use mukthiban::volume::Finding as Found;
use mukthiban::{Kind, Record, Volume};
use std::collections::HashMap;
use std::rc::Rc;

/// What is wrong with a file's record. Such a volume is not sound, though its tables are.
pub struct Finding {
    /// The audit's number: 1 to 3.
    pub kind: u32,
    pub inode: u32,
    /// The file's place in the list of entries.
    pub entry: usize,
    pub line: String,
}

/// A finding as it stands in the audit's list, in words.
pub struct Audited {
    pub found: Found,
    /// The file's place in the list of entries; none of a chain that no file names.
    pub entry: Option<usize>,
    pub line: String,
}

/// What is no fault and yet worth a look.
pub struct Remark {
    pub kind: Remarkable,
    pub line: String,
}

#[derive(Clone, Copy, PartialEq, Eq)]
pub enum Remarkable {
    /// A chain that no file names, by its first block.
    LostChain(u32),
    /// A file with whole blocks behind its end, by its inode.
    UnusedBlocks(u32),
}

/// A chain that no file names.
pub struct Lost {
    pub first_block: u32,
    pub chain: Chain,
}

/// What the records of a volume come to.
#[derive(Default)]
pub struct Account {
    /// The audit's list, whole and in its order.
    pub audited: Vec<Audited>,
    pub findings: Vec<Finding>,
    pub remarks: Vec<Remark>,
    pub lost: Vec<Lost>,
}

impl Account {
    /// Takes the audit, and fills in the entries' blocks and faults.
    pub fn take(volume: &Volume, entries: &mut [Entry]) -> Account {
        let mut files: Vec<usize> = (0..entries.len()).filter(|&e| entries[e].kind == Kind::File).collect();
        files.sort_by_key(|&e| entries[e].inode);
        let place: HashMap<u32, usize> = files.iter().map(|&e| (entries[e].inode, e)).collect();
        let full = |e: &&usize| entries[**e].record.size > 0;
        let (sharers, empty) =
            (naming(entries, files.iter().filter(full)), naming(entries, files.iter().filter(|e| !full(e))));
        let mut chains: HashMap<u32, Option<Rc<Chain>>> = HashMap::new();
        for &e in &files {
            let Record { first_block, size } = entries[e].record;
            let chain = || volume.chain(first_block as usize).ok().map(|blocks| Rc::new(Chain::new(blocks)));
            if size > 0 {
                entries[e].chain = chains.entry(first_block).or_insert_with(chain).clone();
            }
        }
        let mut account = Account::default();
        for found in volume.audit() {
            let line = match found {
                Found::Astray { inode } => account.begins_nowhere(entries, place[&inode]),
                Found::Shared { inode } => account.shared(entries, place[&inode], &sharers),
                Found::Over { inode } => account.too_long(entries, place[&inode], volume.parts().block_len),
                Found::Lost { first_block } => account.lost_chain(volume, entries, first_block, &empty),
            };
            account.audited.push(Audited { found, entry: found.inode().map(|inode| place[&inode]), line });
        }
        account.unused(volume, entries, &files);
        for (at, finding) in account.findings.iter().enumerate() {
            entries[finding.entry].faults.push(at);
        }
        account
    }

    /// Keeps a finding; its line.
    fn find(&mut self, kind: u32, entries: &[Entry], entry: usize, what: String) -> String {
        let line = format!("{}: {what}", path_of(entries, entry));
        self.findings.push(Finding { kind, inode: entries[entry].inode, entry, line: line.clone() });
        line
    }

    fn begins_nowhere(&mut self, entries: &[Entry], e: usize) -> String {
        let block = entries[e].record.first_block;
        self.find(1, entries, e, format!("block {block}, where it should begin, is no file's first block"))
    }

    /// Of files on one chain, who is right can't be told: all are named, the one of lowest inode with the second.
    fn shared(&mut self, entries: &[Entry], e: usize, sharers: &HashMap<u32, Vec<usize>>) -> String {
        let block = entries[e].record.first_block;
        let all = &sharers[&block];
        let claim = |other: usize| match all.len() - 2 {
            0 => format!("two files claim block {block}: this one and {}", path_of(entries, other)),
            more => {
                let files = number(more as u64 + 2);
                format!("{files} files claim block {block}: this one, {} and {more} more", path_of(entries, other))
            }
        };
        if all[1] == e {
            self.find(2, entries, all[0], claim(e));
        }
        self.find(2, entries, e, claim(all[0]))
    }

    fn too_long(&mut self, entries: &[Entry], e: usize, block_len: usize) -> String {
        let blocks = entries[e].blocks().len() as u64;
        let (size, room) = (number(entries[e].record.size), number(blocks * block_len as u64));
        self.find(3, entries, e, format!("{size} bytes, but its {} can hold only {room}", count(blocks, "block")))
    }

    fn lost_chain(
        &mut self,
        volume: &Volume,
        entries: &[Entry],
        first_block: u32,
        empty: &HashMap<u32, Vec<usize>>,
    ) -> String {
        let blocks = volume.chain(first_block as usize).expect("a file's first block");
        let mut line =
            format!("no file names the chain from block {first_block}, {}", count(blocks.len() as u64, "block"));
        if let Some(files) = empty.get(&first_block) {
            line += &format!("; {} is empty, but begins there", path_of(entries, files[0]));
        }
        self.remarks.push(Remark { kind: Remarkable::LostChain(first_block), line: line.clone() });
        self.lost.push(Lost { first_block, chain: Chain::new(blocks) });
        line
    }

    /// Files whose size leaves whole blocks unused.
    fn unused(&mut self, volume: &Volume, entries: &[Entry], files: &[usize]) {
        let block_len = volume.parts().block_len;
        for &e in files {
            let (blocks, record) = (entries[e].blocks().len() as u64, entries[e].record);
            if record.size > 0 && blocks > record.blocks(block_len) {
                let (size, has) = (count(record.size, "byte"), count(blocks, "block"));
                let room = number(blocks * block_len as u64);
                let line = format!("{}: {size}, but it has {has}, which hold {room}", path_of(entries, e));
                self.remarks.push(Remark { kind: Remarkable::UnusedBlocks(entries[e].inode), line });
            }
        }
    }
}

/// For each first block the files that name it, in inode order.
fn naming<'a>(entries: &[Entry], files: impl Iterator<Item = &'a usize>) -> HashMap<u32, Vec<usize>> {
    let mut out: HashMap<u32, Vec<usize>> = HashMap::new();
    for &e in files {
        out.entry(entries[e].record.first_block).or_default().push(e);
    }
    out
}
