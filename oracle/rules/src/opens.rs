//! "Readers and one writer": the record of an inode's opens. "Open records packed": where the records stand.

use crate::answer::Answer::*;
use crate::answer::{refuse, Outcome};

const MOST_OPENS: u32 = 65_535;

/// The top bit says that a writer holds the inode, the low 31 bits count its readers. This is a writer and no reader.
pub const WRITER: u32 = 1 << 31;

/// "Opening says which it wants."
#[derive(Clone, Copy, PartialEq, Eq, Debug)]
pub enum Want {
    Reader,
    Writer,
}

impl Want {
    /// By the interface's number.
    pub fn of(number: u32) -> Option<Want> {
        match number {
            0 => Some(Want::Reader),
            1 => Some(Want::Writer),
            _ => None,
        }
    }
}

pub fn held(record: u32) -> bool {
    record & WRITER != 0
}

pub fn readers(record: u32) -> u32 {
    record & !WRITER
}

/// "The limit of 65,535 counts readers and writer together."
pub fn total(record: u32) -> u32 {
    readers(record) + u32::from(held(record))
}

/// "A second writer is Busy." The limit comes first.
pub fn opened(record: u32, want: Want) -> Outcome<u32> {
    refuse(total(record) >= MOST_OPENS, TooManyOpens)?;
    match want {
        Want::Reader => Ok(record + 1),
        Want::Writer => {
            refuse(held(record), Busy)?;
            Ok(record | WRITER)
        }
    }
}

/// "Giving back what is not held is NotOpen."
pub fn closed(record: u32, want: Want) -> Outcome<u32> {
    match want {
        Want::Reader => {
            refuse(readers(record) == 0, NotOpen)?;
            Ok(record - 1)
        }
        Want::Writer => {
            refuse(!held(record), NotOpen)?;
            Ok(record & !WRITER)
        }
    }
}

/// "Hold it as a list of (inode, record) for opened inodes only, rising by inode, in a lent u32 list with its length." Two places a record; an odd place
/// is never used.
#[derive(Clone, PartialEq, Eq, Hash, Debug, Default)]
pub struct Packed {
    pub list: Vec<u32>,
    /// The number of records.
    pub opened: usize,
}

impl Packed {
    /// Nothing open, and so many places.
    pub fn none(places: usize) -> Packed {
        Packed { list: vec![0; places], opened: 0 }
    }

    /// "A list that is not rising, names inode 0, holds a record with nothing open, or claims more records than its places, is InvalidValue."
    pub fn in_order(&self) -> bool {
        if self.opened > self.list.len() / 2 {
            return false;
        }
        let records = self.records();
        records.iter().all(|(inode, record)| *inode != 0 && *record != 0) && records.windows(2).all(|two| two[0].0 < two[1].0)
    }

    /// Inode and record, one after the other.
    pub fn records(&self) -> Vec<(u32, u32)> {
        self.list.chunks_exact(2).take(self.opened).map(|pair| (pair[0], pair[1])).collect()
    }

    /// The record of an inode, 0 where none is listed.
    pub fn record(&self, inode: u32) -> u32 {
        self.records().iter().find(|(x, _)| *x == inode).map_or(0, |(_, record)| *record)
    }

    /// "Exactly when the inode is not listed and all places are taken."
    pub fn full_for(&self, inode: u32) -> bool {
        self.record(inode) == 0 && self.opened >= self.list.len() / 2
    }

    /// Gives an inode a record, 0 for nothing open. Places past the records stay as they were.
    pub fn put(&mut self, inode: u32, record: u32) {
        let mut records = self.records();
        records.retain(|(x, _)| *x != inode);
        if record != 0 {
            records.push((inode, record));
        }
        records.sort_unstable();
        self.opened = records.len();
        for (pair, (inode, record)) in self.list.chunks_exact_mut(2).zip(records) {
            pair.copy_from_slice(&[inode, record]);
        }
    }
}
