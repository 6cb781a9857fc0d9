//! A broken volume's files in words: paths, how far each can be trusted, and why.

use crate::name::{joined, shown};
use crate::tree::stretches;
use crate::words::{count, number};
use mukthiban::salvage::{Doubt, Ends, Salvage, SalvagedFile, Way};
use mukthiban::{Name, Parts};
use std::collections::HashSet;
use std::path::PathBuf;

/// A broken volume, taken apart, with what the tool says of it.
pub struct Broken {
    pub parts: Parts,
    pub salvage: Salvage,
}

impl Broken {
    pub fn of(parts: Parts) -> Broken {
        let salvage = Salvage::of(&parts);
        Broken { parts, salvage }
    }

    /// The names of the directories above a file, as far as they are known.
    fn above(&self, file: &SalvagedFile) -> Vec<Name> {
        let (Way::Root(way) | Way::Lost(way)) = &file.way;
        way.iter().map(|&d| self.salvage.entries.dir_name(d)).collect()
    }

    /// The names from the root down; where its directory can't be followed up, three dots stand for the rest.
    pub fn path(&self, file: &SalvagedFile) -> String {
        let names = [self.above(file), vec![file.name]].concat();
        match file.way {
            Way::Root(_) => joined(&names),
            Way::Lost(_) => format!("/...{}", joined(&names)),
        }
    }

    /// The directories with a way up to the root, each by its names, and those above before those below.
    pub fn directories(&self) -> Vec<Vec<Name>> {
        let entries = &self.salvage.entries;
        let ways = entries.dir_inodes().filter_map(|d| match entries.way(d) {
            Way::Root(way) => Some(way.iter().map(|&d| entries.dir_name(d)).collect::<Vec<Name>>()),
            Way::Lost(_) => None,
        });
        let mut all: Vec<Vec<Name>> = ways.collect();
        all.sort_by_key(|way| (way.len(), way.clone()));
        all.dedup();
        all
    }

    /// Where a file goes below the folder that all is lifted to, each name once.
    pub fn host(&self, file: &SalvagedFile, doubtful: &str, taken: &mut HashSet<PathBuf>) -> PathBuf {
        let mut host = PathBuf::new();
        if file.doubt.is_some() {
            host.push(doubtful);
        }
        if matches!(file.way, Way::Lost(_)) {
            host.push("...");
        }
        self.above(file).iter().for_each(|name| host.push(shown(name)));
        let own = shown(&file.name);
        let names = [own.clone(), format!("{own}\\file"), format!("{own}\\inode-{}", file.inode)];
        let free = names.iter().map(|name| host.join(name)).find(|path| !taken.contains(path));
        let path = free.unwrap_or_else(|| host.join(&names[2]));
        taken.insert(path.clone());
        path
    }

    /// How far a file can be trusted, in words.
    pub fn line(&self, file: &SalvagedFile) -> String {
        let block = file.record.first_block;
        let (followed, need) = (file.followed as u64, file.record.blocks(self.salvage.block_len));
        let so_far = || format!("{} of {} followed", number(followed), count(need, "block"));
        match file.doubt {
            None => "whole".into(),
            Some(Doubt::NoChain) => format!("no chain begins at block {block}, where its record says"),
            Some(Doubt::Cut(Ends::HasPrevious)) => format!("block {block}, where it should begin, is another's next"),
            Some(Doubt::Cut(Ends::Broken(fault))) => {
                let what = match fault.rule {
                    7 => "names a node that does not name it back, or that came before",
                    _ => fault.meaning(),
                };
                format!("its chain breaks off at entry {} (rule {}: {what}); {}", fault.entry, fault.rule, so_far())
            }
            Some(Doubt::Cut(Ends::Whole)) => "its chain can't be trusted".into(),
            Some(Doubt::Shared) => format!("another chain has a block of the one from block {block} too"),
            Some(Doubt::Unjudged) => "too many chains share blocks: its own was not judged".into(),
            Some(Doubt::Short) => {
                format!("its blocks are too few for {}: {}", count(file.record.size, "byte"), so_far())
            }
            Some(Doubt::PastData) => "a block of it lies past the end of data.bin".into(),
            Some(Doubt::NoWay) => "its directory can't be followed up to the root".into(),
            Some(Doubt::SameName) => "another file has its directory and name".into(),
            Some(Doubt::Entry) => "its entry is damaged: its name or its directory may be another".into(),
            Some(Doubt::Above) => {
                "its bytes are whole, but the entry of a directory above it is damaged: its path may be another".into()
            }
            Some(Doubt::Lengths) => {
                "the block length does not go with table and data, and it can't be told which is right for it".into()
            }
            Some(Doubt::AboveCount) => "its entry lies above the count of the file table".into(),
        }
    }

    /// The stretches of a file's blocks.
    pub fn pieces(&self, file: &SalvagedFile) -> Vec<(u32, u32)> {
        stretches(&file.blocks)
    }

    /// "3 of 4 files can be lifted whole".
    pub fn summary(&self) -> String {
        let (whole, files) = (self.salvage.whole() as u64, self.salvage.files.len() as u64);
        format!("{} of {} can be lifted whole", number(whole), count(files, "file"))
    }
}
