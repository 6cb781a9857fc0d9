//! What `fs_meta.rs` keeps: the four tables in memory beside their files, and the opens of their entries.

use super::{ParentedKey, KEY};
use crate::error::*;
use crate::random_access_file::*;
use mukthiban::tree::{DIR_WIDTH, FILE_WIDTH, MAX_BUCKETS, MAX_ENTRIES};
use mukthiban::{Change, EntryTables, Kind, Name, Part, Refusal, Want};
use std::cell::{Cell, RefCell};
use std::rc::Rc;

/// The longest hash.
pub const HASH_MOST: usize = MAX_BUCKETS * 4;

/// The longest table of entries of that width.
pub const fn table_most(width: usize) -> usize {
    (MAX_ENTRIES + 1) * width - 1
}

/// The original's name for a refusal. It has none for broken entry tables, nor for a directory that is moved into itself.
fn named(refusal: Refusal) -> Error {
    match refusal {
        Refusal::SizeMismatch => Error::SizeMismatch,
        Refusal::NoSpace => Error::NoSpace,
        Refusal::NotFound => Error::NotFound,
        Refusal::AlreadyExist => Error::AlreadyExist,
        Refusal::Busy | Refusal::TooManyOpens => Error::Busy,
        Refusal::DeletingRoot => Error::DeletingRoot,
        Refusal::NotEmpty => Error::NotEmpty,
        _ => Error::InvalidValue,
    }
}

/// Refused, by the original's name.
pub fn refuse<T>(refusal: impl Into<Refusal>) -> Result<T, Error> {
    make_error(named(refusal.into()))
}

/// The four tables, kept in memory beside their files.
pub struct Store {
    /// Directory hash and table, file hash and table.
    files: [Rc<dyn RandomAccessFile>; 4],
    pub kept: RefCell<EntryTables>,
    /// The stretches of which a file may hold something else, since a write failed. They are written before the next
    /// change.
    unsaved: RefCell<Vec<Change>>,
}

impl Store {
    /// Reads the tables and tests them.
    pub fn open(files: [Rc<dyn RandomAccessFile>; 4]) -> Result<Store, Error> {
        let [dir_hash, dir_table, file_hash, file_table] = &files;
        let kept = EntryTables::open(
            read_hash(dir_hash.as_ref())?,
            read_entries(dir_table.as_ref(), DIR_WIDTH)?,
            read_hash(file_hash.as_ref())?,
            read_entries(file_table.as_ref(), FILE_WIDTH)?,
        );
        Ok(Store { kept: RefCell::new(kept.or_else(refuse)?), files, unsaved: RefCell::default() })
    }

    /// Makes a change in the kept tables and writes what it changed. Where a write fails the change is taken back, in
    /// memory and in the files.
    pub fn change<T>(&self, call: impl FnOnce(&mut EntryTables) -> Result<T, Refusal>) -> Result<T, Error> {
        let mut kept = self.kept.borrow_mut();
        self.save_rest(&kept)?;
        let answer = call(&mut kept).or_else(refuse)?;
        for (done, &change) in kept.changed().iter().enumerate() {
            if let Err(error) = self.save(&kept, change) {
                self.unsaved.borrow_mut().extend_from_slice(&kept.changed()[..=done]);
                kept.undo();
                // What this can't write stays noted, and is written before the next change.
                let _ = self.save_rest(&kept);
                return Err(error);
            }
        }
        Ok(answer)
    }

    fn save(&self, kept: &EntryTables, change: Change) -> Result<(), Error> {
        let file = match change.part {
            Part::DirHash => 0,
            Part::DirTable => 1,
            Part::FileHash => 2,
            Part::FileTable => 3,
        };
        self.files[file].write(change.at, kept.bytes(change))
    }

    /// Writes the stretches that a failed write left behind.
    fn save_rest(&self, kept: &EntryTables) -> Result<(), Error> {
        let mut unsaved = self.unsaved.borrow_mut();
        while let Some(&change) = unsaved.last() {
            self.save(kept, change)?;
            unsaved.pop();
        }
        Ok(())
    }

    /// The bytes of an entry that a ticket holds.
    pub fn entry<T>(&self, kind: Kind, ino: u32, read: impl FnOnce(&[u8]) -> T) -> Result<T, Error> {
        match self.kept.borrow().entry(kind, ino) {
            Some(entry) => Ok(read(entry)),
            None => make_error(Error::NotFound),
        }
    }

    /// What is in a directory, in list order.
    pub fn list<Key: ParentedKey>(&self, kind: Kind, dir: u32) -> Result<Vec<(Key::NameType, u32)>, Error> {
        let kept = self.kept.borrow();
        let list = kept.list(kind, dir).or_else(refuse)?;
        let name = |ino| kept.entry(kind, ino).map(|entry| (Key::read_bytes(&entry[..KEY]).get_name(), ino));
        Ok(list.into_iter().filter_map(name).collect())
    }
}

/// A file of that length at most, as zeros to be read into.
pub fn zeros(file: &dyn RandomAccessFile, most: usize) -> Result<Vec<u8>, Error> {
    match file.len() {
        len if len <= most => Ok(vec![0; len]),
        _ => refuse(Refusal::InvalidValue),
    }
}

fn read_hash(file: &dyn RandomAccessFile) -> Result<Vec<u8>, Error> {
    let mut bytes = zeros(file, HASH_MOST)?;
    file.read(0, &mut bytes)?;
    Ok(bytes)
}

/// Reads a table. Where a part of it was never written, which a file with hashes refuses to read, only the entries below
/// its count are read: no rule reads what lies behind them.
fn read_entries(file: &dyn RandomAccessFile, width: usize) -> Result<Vec<u8>, Error> {
    let mut bytes = zeros(file, table_most(width))?;
    match file.read(0, &mut bytes) {
        Err(Error::HashMismatch) if bytes.len() >= width => {
            bytes.fill(0);
            file.read(0, &mut bytes[..4])?;
            let count = u32::from_le_bytes([bytes[0], bytes[1], bytes[2], bytes[3]]) as usize;
            let end = count.min(bytes.len() / width) * width;
            file.read(0, &mut bytes[..end])?;
        }
        read => read?,
    }
    Ok(bytes)
}

/// An entry that is held open; dropping it gives the open back.
///
/// The original's handles are all alike: any of them renames, and the only one of an entry deletes. Here an entry has one
/// writer, and delete and rename need its open. So the first handle of an entry is its writer and the others are readers,
/// and a reader becomes the writer where it is to rename or delete and there is none.
///
/// This is the one place that knows how an open is noted.
pub struct Ticket {
    pub store: Rc<Store>,
    kind: Kind,
    pub ino: u32,
    want: Cell<Want>,
}

impl Ticket {
    /// Opens an entry that is there.
    pub fn hold(store: &Rc<Store>, kind: Kind, ino: u32) -> Result<Ticket, Error> {
        let mut kept = store.kept.borrow_mut();
        let want = match kept.open_inode(kind, ino, Want::Writer) {
            Err(Refusal::Busy) => kept.open_inode(kind, ino, Want::Reader).map(|()| Want::Reader),
            other => other.map(|()| Want::Writer),
        };
        Ok(Ticket::held(store, kind, ino, want.or_else(refuse)?))
    }

    /// An entry that is open for this ticket.
    fn held(store: &Rc<Store>, kind: Kind, ino: u32, want: Want) -> Ticket {
        Ticket { store: store.clone(), kind, ino, want: Cell::new(want) }
    }

    /// Makes a reader the writer if there is none.
    fn claim(&self) {
        if self.want.get() == Want::Writer {
            return;
        }
        // Its own open is given back first, so that there is room for another.
        let mut kept = self.store.kept.borrow_mut();
        let _ = kept.close_inode(self.kind, self.ino, Want::Reader);
        match kept.open_inode(self.kind, self.ino, Want::Writer) {
            Ok(()) => self.want.set(Want::Writer),
            Err(_) => drop(kept.open_inode(self.kind, self.ino, Want::Reader)),
        }
    }

    pub fn make_dir(store: &Rc<Store>, parent: u32, name: &Name, carried: &[u8; 4]) -> Result<Ticket, Error> {
        let ino = store.change(|kept| kept.make_dir(parent, name, carried))?;
        Ok(Ticket::held(store, Kind::Dir, ino, Want::Writer))
    }

    pub fn make_file(store: &Rc<Store>, parent: u32, name: &Name, carried: &[u8; 20]) -> Result<Ticket, Error> {
        let ino = store.change(|kept| kept.make_file(parent, name, carried))?;
        Ok(Ticket::held(store, Kind::File, ino, Want::Writer))
    }

    pub fn find(store: &Rc<Store>, kind: Kind, parent: u32, name: &Name) -> Result<Ticket, Error> {
        let found = store.kept.borrow().lookup(kind, parent, name);
        Ticket::hold(store, kind, found.or_else(refuse)?.inode)
    }

    pub fn rename(&self, parent: &Ticket, name: &Name) -> Result<(), Error> {
        if !Rc::ptr_eq(&self.store, &parent.store) {
            return refuse(Refusal::InvalidValue);
        }
        self.claim();
        self.store.change(|kept| kept.rename(self.kind, self.ino, parent.ino, name))
    }

    /// Deletes the entry, and its open with it. Where this is refused the open is given back.
    pub fn delete(self) -> Result<(), Error> {
        self.claim();
        self.store.change(|kept| kept.delete(self.kind, self.ino))
    }

    /// Whether this is the entry's only open.
    pub fn check_exclusive(&self) -> Result<(), Error> {
        match self.store.kept.borrow().opens(self.kind, self.ino) {
            1 => Ok(()),
            _ => make_error(Error::Busy),
        }
    }

    pub fn get_parent_ino<Key: ParentedKey>(&self) -> Result<u32, Error> {
        self.store.entry(self.kind, self.ino, |entry| Key::read_bytes(&entry[..KEY]).get_parent())
    }
}

impl Drop for Ticket {
    fn drop(&mut self) {
        // Refused where the entry was deleted, and its open with it.
        let _ = self.store.kept.borrow_mut().close_inode(self.kind, self.ino, self.want.get());
    }
}
