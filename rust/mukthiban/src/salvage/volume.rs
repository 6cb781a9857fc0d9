//! A broken volume's files, each with how far it can be trusted.

use super::entries::{Entries, Found, Way};
use super::{chains, naive, shared, Ends, Followed, Trust};
use crate::fat::MAX_BLOCKS;
use crate::parts::Parts;
use crate::record::Record;
use crate::tables::Name;
use std::collections::HashMap;

/// Why a file is not called whole. Of several reasons the first.
#[derive(Clone, Copy, Debug, PartialEq, Eq)]
pub enum Doubt {
    /// No chain can begin at the block that its record names.
    NoChain,
    /// Its chain can't be followed to an end.
    Cut(Ends),
    /// Another chain, a file's or the free one, has a block of its chain too, or names it.
    Shared,
    /// Its chain was not judged, since the chains of the others have so many blocks.
    Unjudged,
    /// Its chain is whole and has too few blocks for its size.
    Short,
    /// A block of it lies past the end of the data.
    PastData,
    /// Its directory can't be followed up to the root.
    NoWay,
    /// Another entry has its directory and name.
    SameName,
    /// Its entry lies at or above the count of the table.
    AboveCount,
    /// Its entry shows damage: its name or its directory may be another.
    Entry,
    /// The entry of a directory above it shows damage: its path may be another.
    Above,
    /// The block length does not go with the lengths of table and data, and it has not as many blocks as its size asks for,
    /// or two block lengths are as good.
    Lengths,
}

/// A file.
#[derive(Clone, Debug)]
pub struct SalvagedFile {
    /// Its inode.
    pub inode: u32,
    /// Its name.
    pub name: Name,
    /// The directories above it.
    pub way: Way,
    /// What its carried bytes say.
    pub record: Record,
    /// Its blocks, in their order; of a chain that is cut those that could be followed, and then what its links name
    /// without naming it back.
    pub blocks: Vec<u32>,
    /// How many of them the proved call followed.
    pub followed: usize,
    /// Why it is not called whole; none where it is.
    pub doubt: Option<Doubt>,
}

impl SalvagedFile {
    /// Its bytes, as far as there are blocks and data for them.
    pub fn bytes(&self, data: &[u8], block_len: usize) -> Vec<u8> {
        let size = usize::try_from(self.record.size).unwrap_or(usize::MAX);
        let mut bytes = Vec::new();
        for &block in &self.blocks {
            let from = (block as usize).saturating_mul(block_len).min(data.len());
            let to = (from + block_len).min(data.len());
            bytes.extend(&data[from..to]);
            if bytes.len() >= size {
                break;
            }
        }
        bytes.truncate(size);
        bytes
    }
}

/// A chain that no file names.
#[derive(Clone, Debug)]
pub struct LostChain {
    /// Its blocks, in their order.
    pub blocks: Vec<u32>,
}

/// A broken volume, taken apart.
pub struct Salvage {
    /// The files, by inode.
    pub files: Vec<SalvagedFile>,
    /// The whole chains that no file names and that share no block.
    pub lost: Vec<LostChain>,
    /// The entries that the files were read from.
    pub entries: Entries,
    /// The free chain, as far as it could be followed.
    pub free: Vec<u32>,
    /// The block length that the files were read with.
    pub block_len: usize,
    /// What is to be said where block length, table and data do not go with each other.
    pub remark: Option<String>,
}

/// How the block length goes with the lengths of table and data.
#[derive(Clone, Copy, PartialEq, Eq)]
enum Lengths {
    /// It does.
    Fit,
    /// It does not; the files go with the one that was taken.
    Settled,
    /// It does not, and two are as good.
    Unsure,
}

/// The table as the calls take it: a length that they take, and its blocks.
fn fitting(fat: &[u8]) -> &[u8] {
    &fat[..(fat.len() / 8).min(MAX_BLOCKS + 1) * 8]
}

/// What the chains of some first blocks are worth beside each other.
fn trusts(table: &[u8], work: &mut [u32], firsts: &[u32]) -> Vec<Trust> {
    let mut kinds = vec![0; firsts.len()];
    match shared(table, work, firsts, &mut kinds) {
        Ok(()) => kinds.into_iter().map(|k| Trust::of(k).expect("a kind")).collect(),
        Err(_) => vec![Trust::Cut; firsts.len()], // no table at all
    }
}

/// The chains of some first blocks, by one proved call.
struct Chains {
    told: Vec<[usize; 3]>,
    /// Where the blocks of each begin.
    from: Vec<usize>,
    list: Vec<u32>,
}

impl Chains {
    fn of(table: &[u8], work: &mut [u32], firsts: &[u32]) -> Chains {
        let mut told = vec![[0, 0, 9]; firsts.len()];
        let mut list = vec![0; 5 * work.len()];
        let count = chains(table, work, firsts, &mut told, &mut list).unwrap_or(0); // 0: no table at all
        list.truncate(count);
        let from = told.iter().scan(0, |at, told| Some(std::mem::replace(at, *at + told[0]))).collect();
        Chains { told, from, list }
    }

    /// The blocks of one, and why there are no more; none where no node can be read at its first block.
    fn at(&self, place: usize) -> (&[u32], Option<Ends>) {
        let blocks = &self.list[self.from[place]..][..self.told[place][0]];
        let ends = Followed::of(&self.told[place]).map(|f| f.ends);
        (blocks, ends.filter(|e| !blocks.is_empty() || *e == Ends::HasPrevious))
    }
}

impl Salvage {
    /// Takes a volume apart. Any bytes are allowed.
    ///
    /// Where the block length does not go with the lengths of table and data, the one is taken that more files go with, of
    /// the one that is written and the one that these lengths say. A file goes with it that has as many blocks as its size
    /// asks for; others are then in doubt, and where both are as good, all are.
    pub fn of(parts: &Parts) -> Salvage {
        let (n, length, written) = (parts.blocks(), parts.data.len(), parts.block_len);
        if n.checked_mul(written) == Some(length) {
            return Salvage::with(parts, written, Lengths::Fit);
        }
        let possible = |len: &usize| (1..=crate::fat::MAX_BLOCK_LEN).contains(len);
        let told = (n > 0 && length.is_multiple_of(n)).then(|| length / n).filter(possible);
        let mut best: Option<(usize, Salvage)> = None;
        let mut unsure = false;
        for len in [told, Some(written).filter(possible)].into_iter().flatten() {
            let salvage = Salvage::with(parts, len, Lengths::Settled);
            let going = |f: &&SalvagedFile| f.record.size > 0 && f.followed as u64 == f.record.blocks(len);
            let files = salvage.files.iter().filter(going).count();
            if let Some((before, _)) = &best {
                unsure = 2 * files.min(*before) > files.max(*before);
            }
            if best.as_ref().is_none_or(|(before, _)| files > *before) {
                best = Some((files, salvage));
            }
        }
        let mut salvage = match best {
            Some((_, salvage)) if !unsure => salvage,
            Some((_, salvage)) => Salvage::with(parts, salvage.block_len, Lengths::Unsure),
            None => Salvage::with(parts, 1, Lengths::Unsure),
        };
        let taken =
            if salvage.block_len == written { String::new() } else { format!("; read with {}", salvage.block_len) };
        salvage.remark = Some(format!("{length} bytes of data are not {n} blocks of {written} bytes{taken}"));
        salvage
    }

    fn with(parts: &Parts, block_len: usize, lengths: Lengths) -> Salvage {
        let table = fitting(&parts.fat);
        let n = (table.len() / 8).saturating_sub(1);
        let mut work = vec![0; n];
        let entries = Entries::read(parts.tables());
        let records: Vec<Record> = entries.files.iter().map(|f| Record::of(&f.carried)).collect();
        let head = head_of(table);
        // the files with bytes, and the free chain
        let mut firsts: Vec<u32> = records.iter().filter(|r| r.size > 0).map(|r| r.first_block).collect();
        firsts.extend(head);
        let judged = trusts(table, &mut work, &firsts);
        let chains = Chains::of(table, &mut work, &firsts);
        let mut names: HashMap<(u32, Name), usize> = HashMap::new();
        for f in &entries.files {
            *names.entry((f.parent, f.name)).or_default() += 1;
        }
        // as many blocks are guessed behind chains that are cut as the calls follow, so that this is linear too
        let (mut at, mut guess) = (0, 4 * n as u64);
        let mut files = Vec::with_capacity(records.len());
        for (found, record) in entries.files.iter().zip(&records) {
            let chain = (record.size > 0).then(|| {
                at += 1;
                (judged[at - 1], chains.at(at - 1))
            });
            let twice = names[&(found.parent, found.name)] > 1;
            files.push(file(parts, (block_len, lengths), (table, &mut guess), &entries, found, *record, chain, twice));
        }
        let free = head.map_or(Vec::new(), |_| chains.at(at).0.to_vec());
        let lost = lost(table, &mut work, &firsts);
        Salvage { files, lost, entries, free, block_len, remark: None }
    }

    /// The files that are called whole.
    pub fn whole(&self) -> usize {
        self.files.iter().filter(|f| f.doubt.is_none()).count()
    }
}

/// The block that the head names, if it has its form.
fn head_of(table: &[u8]) -> Option<u32> {
    let word = |at: usize| table.get(at..at + 4).map(|b| u32::from_le_bytes(b.try_into().expect("4 bytes")));
    match (word(0)?, word(4)?) {
        (0, index) if index > 0 && index < 1 << 31 => Some(index - 1),
        _ => None,
    }
}

#[allow(clippy::too_many_arguments)]
fn file(
    parts: &Parts,
    (block_len, lengths): (usize, Lengths),
    (table, guess): (&[u8], &mut u64),
    entries: &Entries,
    found: &Found,
    record: Record,
    chain: Option<(Trust, (&[u32], Option<Ends>))>,
    twice: bool,
) -> SalvagedFile {
    let (mut blocks, mut doubt) = (Vec::new(), None);
    let need = record.blocks(block_len);
    let mut followed = 0;
    if let Some((trust, (taken, ends))) = chain {
        followed = taken.len();
        blocks = taken.to_vec();
        doubt = match (trust, ends) {
            (Trust::Unjudged, _) => Some(Doubt::Unjudged),
            (_, None) => Some(Doubt::NoChain),
            (Trust::Shared, _) => Some(Doubt::Shared),
            (Trust::Whole, _) if (blocks.len() as u64) < need => Some(Doubt::Short),
            (Trust::Whole, _) => None,
            (Trust::Cut, Some(ends)) => Some(Doubt::Cut(ends)),
        };
        if matches!(doubt, Some(Doubt::Cut(_) | Doubt::NoChain)) {
            blocks = naive::blocks(table, record.first_block, need.min(*guess));
            *guess -= blocks.len().min(*guess as usize) as u64;
            if blocks.len() < followed {
                blocks = taken.to_vec();
            }
        }
        let end = |b: u32| (u64::from(b) + 1) * block_len as u64;
        let used = blocks.iter().take(usize::try_from(need).unwrap_or(usize::MAX));
        let goes = match lengths {
            Lengths::Fit => true,
            Lengths::Settled => blocks.len() as u64 == need,
            Lengths::Unsure => false,
        };
        if doubt.is_none() && !goes {
            doubt = Some(Doubt::Lengths);
        }
        if doubt.is_none() && used.clone().any(|&b| end(b) > parts.data.len() as u64) {
            doubt = Some(Doubt::PastData);
        }
    }
    let way = entries.way(found.parent);
    let moved = |way: &[u32]| way.iter().any(|&d| entries.dir_damaged(d));
    let other = match (&way, twice, found.sure) {
        (Way::Lost(_), ..) => Some(Doubt::NoWay),
        (_, true, _) => Some(Doubt::SameName),
        (.., false) => Some(Doubt::AboveCount),
        _ if found.damaged => Some(Doubt::Entry),
        (Way::Root(way), ..) if moved(way) => Some(Doubt::Above),
        _ => None,
    };
    SalvagedFile { inode: found.inode, name: found.name, way, record, blocks, followed, doubt: doubt.or(other) }
}

/// The whole chains that no file names: of every block at which a node with no previous can be read, those that share
/// no block with another.
fn lost(table: &[u8], work: &mut [u32], named: &[u32]) -> Vec<LostChain> {
    let n = work.len();
    let known: std::collections::HashSet<u32> = named.iter().copied().collect();
    let first = |b: usize| table[8 * (b + 1)..8 * (b + 1) + 4] == [0, 0, 0, 0x80];
    let starts: Vec<u32> = (0..n).filter(|&b| first(b)).map(|b| b as u32).filter(|b| !known.contains(b)).collect();
    let mut all = named.to_vec();
    all.extend(&starts);
    if all.len() > 1_000_000 {
        return Vec::new();
    }
    let judged = trusts(table, work, &all);
    let alone = starts.iter().zip(&judged[named.len()..]).filter(|(_, t)| **t == Trust::Whole).map(|(b, _)| *b);
    let alone: Vec<u32> = alone.collect();
    let chains = Chains::of(table, work, &alone);
    (0..alone.len()).map(|i| LostChain { blocks: chains.at(i).0.to_vec() }).collect()
}
