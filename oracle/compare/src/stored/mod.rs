//! Stored answers: calls with what was lent before and after. oracle/stored/README.md describes the bytes.

mod blocks;
pub mod bytes;
mod tree;

pub use blocks::{block_bytes, block_record, BLOCK_RECORD};
pub use tree::{tree_bytes, tree_record, TREE_RECORD};

use blocks::{block_fits, block_number, kept_part};
use port::{Answered, BlockCall, Blocks, Tree, TreeCall};
use std::cell::RefCell;
use std::collections::HashMap;
use tree::{kinds_fit, tree_fits, tree_number};

pub const BLOCK_MARK: u32 = u32::from_le_bytes(*b"MUKB");
pub const TREE_MARK: u32 = u32::from_le_bytes(*b"MUKT");
pub const HEADER: usize = 16;
pub const VERSION: u32 = 2;

/// A call, what was lent, what came back, and whether the original gave the same.
#[derive(Clone, PartialEq, Eq, Debug)]
pub struct Record<Call, Lent> {
    pub call: Call,
    pub before: Lent,
    pub after: Lent,
    pub answered: Answered,
    pub original: bool,
}

pub type BlockRecord = Record<BlockCall, Blocks>;
pub type TreeRecord = Record<TreeCall, Tree>;

// Keeping a sample.

/// The records kept so far: at most so many for each call and refusal, and four times as many for Done.
#[derive(Default)]
pub struct Kept {
    pub blocks: Vec<BlockRecord>,
    pub tree: Vec<TreeRecord>,
    counts: HashMap<(bool, u32, u32), usize>,
    each: usize,
    /// Whether the last call offered was kept.
    last: bool,
}

thread_local! {
    static KEPT: RefCell<Option<Kept>> = const { RefCell::new(None) };
}

/// From now on calls on this thread are offered to the sample.
pub fn keep(each: usize) {
    KEPT.set(Some(Kept { each, ..Kept::default() }));
}

pub fn kept() -> Kept {
    KEPT.take().expect("a sample was kept")
}

impl Kept {
    fn wants(&mut self, key: (bool, u32, u32), fits: bool) -> bool {
        let count = self.counts.entry(key).or_default();
        let most = if key.2 == 0 { 4 * self.each } else { self.each };
        self.last = fits && *count < most;
        if self.last {
            *count += 1;
        }
        self.last
    }
}

pub fn offer_block(call: &BlockCall, before: &Blocks, after: &Blocks, answered: &Answered) {
    KEPT.with_borrow_mut(|kept| {
        let Some(kept) = kept else { return };
        let key = (false, block_number(call), answered.number);
        if kept.wants(key, block_fits(call, before, answered.number)) {
            kept.blocks.push(Record {
                call: call.clone(),
                before: kept_part(call, before),
                after: kept_part(call, after),
                answered: *answered,
                original: false,
            });
        }
    });
}

pub fn offer_tree(call: &TreeCall, before: &Tree, after: &Tree, answered: &Answered) {
    KEPT.with_borrow_mut(|kept| {
        let Some(kept) = kept else { return };
        let key = (true, tree_number(call), answered.number);
        if kept.wants(key, kinds_fit(call) && tree_fits(before)) {
            kept.tree.push(Record {
                call: call.clone(),
                before: before.clone(),
                after: after.clone(),
                answered: *answered,
                original: false,
            });
        }
    });
}

/// The original gave the same on the block call offered last.
pub fn confirm_block() {
    KEPT.with_borrow_mut(|kept| {
        if let Some(kept) = kept.as_mut().filter(|kept| kept.last) {
            kept.blocks.last_mut().unwrap().original = true;
        }
    });
}

pub fn confirm_tree() {
    KEPT.with_borrow_mut(|kept| {
        if let Some(kept) = kept.as_mut().filter(|kept| kept.last) {
            kept.tree.last_mut().unwrap().original = true;
        }
    });
}

/// One part of a stored file: a header of four words (mark, version, number of records, width of one or of its head), then the records.
pub fn part(mark: u32, width: usize, records: &[Vec<u8>]) -> Vec<u8> {
    let header = [mark, VERSION, records.len() as u32, width as u32];
    let mut bytes: Vec<u8> = header.iter().flat_map(|w| w.to_le_bytes()).collect();
    records.iter().for_each(|record| bytes.extend(record));
    bytes
}
