use super::smallest;
use super::watch::{Change, Part, Watch};
use crate::parts::Parts;
use crate::refusal::Refusal;
use crate::tables::{Kind, Name, Tables, Want, DIR_WIDTH, FILE_WIDTH};
use crate::tree::{self, Found, Missed, Stat};
use crate::whole::Volume;
use std::fmt;

/// The four entry tables without a block table, tested once, for a program whose tables stand in files elsewhere.
///
/// Every call is the proved inner call. After a changing call [`EntryTables::changed`] names the stretches that it
/// changed: what the tables' files need to be written. Where that fails [`EntryTables::undo`] takes the call back.
///
/// ```
/// use mukthiban::{name, EntryTables, Kind, Refusal, Shape, Volume, ROOT};
/// let shape = Shape { blocks: 1, block_len: 512, dir_max: 4, file_max: 4, buckets: 3 };
/// let parts = Volume::new(shape)?.into_parts();
/// let mut tables = EntryTables::open(parts.dir_hash, parts.dir_table, parts.file_hash, parts.file_table)?;
///
/// let file = tables.make_file(ROOT, &name::from_text("slot1").unwrap(), &[7; 20])?;
/// assert_eq!(tables.list(Kind::File, ROOT)?, [file]);
/// assert_eq!(tables.changed().len(), 4); // the count, the entry, its bucket and the root's list
/// tables.undo();
/// assert_eq!(tables.list(Kind::File, ROOT)?, []);
/// # Ok::<(), Refusal>(())
/// ```
#[derive(Clone)]
pub struct EntryTables {
    volume: Volume,
    watch: Watch,
    last: Last,
}

/// What the last changing call did to the opens.
#[derive(Clone, Copy)]
enum Last {
    Nothing,
    Made(Kind, u32),
    Deleted(Kind, u32),
}

/// Lengths alone: the bytes are many.
impl fmt::Debug for EntryTables {
    fn fmt(&self, f: &mut fmt::Formatter<'_>) -> fmt::Result {
        f.debug_tuple("EntryTables").field(&self.tables()).finish()
    }
}

impl EntryTables {
    /// Tests the four tables and takes them over. Nothing is open.
    pub fn open(
        dir_hash: Vec<u8>,
        dir_table: Vec<u8>,
        file_hash: Vec<u8>,
        file_table: Vec<u8>,
    ) -> Result<EntryTables, Refusal> {
        let parts = Parts { dir_hash, dir_table, file_hash, file_table, ..smallest().into_parts() };
        Ok(EntryTables { volume: Volume::open(parts)?, watch: Watch::default(), last: Last::Nothing })
    }

    /// The four tables, to be read.
    pub fn tables(&self) -> Tables<'_> {
        self.volume.parts.tables()
    }

    /// The bytes of a stretch.
    pub fn bytes(&self, Change { part, at, len }: Change) -> &[u8] {
        let tables = self.tables();
        let table = match part {
            Part::DirHash => tables.dir_hash,
            Part::DirTable => tables.dir_table,
            Part::FileHash => tables.file_hash,
            Part::FileTable => tables.file_table,
        };
        &table[at..at + len]
    }

    /// The bytes of an entry: 40 of a directory, 48 of a file. None past the table's room; whether it is live is not
    /// looked at.
    pub fn entry(&self, kind: Kind, inode: u32) -> Option<&[u8]> {
        let (table, width) = match kind {
            Kind::Dir => (&self.volume.parts.dir_table, DIR_WIDTH),
            Kind::File => (&self.volume.parts.file_table, FILE_WIDTH),
        };
        let at = inode as usize * width;
        table.get(at..at + width)
    }

    /// Finds an entry by parent and name.
    pub fn lookup(&self, kind: Kind, parent: u32, name: &Name) -> Result<Found, Missed> {
        match kind {
            Kind::Dir => self.volume.lookup_dir(parent, name),
            Kind::File => self.volume.lookup_file(parent, name),
        }
    }

    /// The inodes in a directory, in list order.
    pub fn list(&self, kind: Kind, inode: u32) -> Result<Vec<u32>, Refusal> {
        match kind {
            Kind::Dir => self.volume.list_dirs(inode),
            Kind::File => self.volume.list_files(inode),
        }
    }

    /// Entries in all and entries still free, of both tables.
    pub fn stat(&self) -> Result<Stat, Refusal> {
        self.volume.stat()
    }

    /// Makes a directory, held by its writer.
    pub fn make_dir(&mut self, parent: u32, name: &Name, carried: &[u8; 4]) -> Result<u32, Refusal> {
        self.change(
            |watch, parts| watch.new_entry(parts, Kind::Dir, parent, name),
            |volume| volume.make_dir(parent, name, carried),
            |inode| Last::Made(Kind::Dir, *inode),
        )
    }

    /// Makes a file entry, held by its writer.
    pub fn make_file(&mut self, parent: u32, name: &Name, carried: &[u8; 20]) -> Result<u32, Refusal> {
        self.change(
            |watch, parts| watch.new_entry(parts, Kind::File, parent, name),
            |volume| volume.make_file(parent, name, carried),
            |inode| Last::Made(Kind::File, *inode),
        )
    }

    /// Gives an entry that a writer holds another parent and name.
    pub fn rename(&mut self, kind: Kind, inode: u32, parent: u32, name: &Name) -> Result<(), Refusal> {
        self.change(
            |watch, parts| watch.moved(parts, kind, inode, parent, name),
            |volume| match kind {
                Kind::Dir => volume.rename_dir(inode, parent, name),
                Kind::File => volume.rename_file(inode, parent, name),
            },
            |()| Last::Nothing,
        )
    }

    /// Deletes an entry that its writer holds and no reader; a directory that has no children.
    pub fn delete(&mut self, kind: Kind, inode: u32) -> Result<(), Refusal> {
        self.change(
            |watch, parts| watch.gone(parts, kind, inode),
            |volume| match kind {
                Kind::Dir => volume.delete_dir(inode),
                Kind::File => volume.delete_file(inode),
            },
            |()| Last::Deleted(kind, inode),
        )
    }

    /// Sets a directory's 4 carried bytes.
    pub fn set_carried_dir(&mut self, inode: u32, carried: &[u8; 4]) -> Result<(), Refusal> {
        self.change(
            |watch, parts| watch.stretch(parts, Part::DirTable, inode as usize * DIR_WIDTH + 32, 4),
            |volume| volume.set_carried_dir(inode, carried),
            |()| Last::Nothing,
        )
    }

    /// Sets a file's 20 carried bytes.
    pub fn set_carried_file(&mut self, inode: u32, carried: &[u8; 20]) -> Result<(), Refusal> {
        self.change(
            |watch, parts| watch.stretch(parts, Part::FileTable, inode as usize * FILE_WIDTH + 24, 20),
            |volume| volume.set_carried_file(inode, carried),
            |()| Last::Nothing,
        )
    }

    /// Opens an inode once more, for a reader or for the writer.
    pub fn open_inode(&mut self, kind: Kind, inode: u32, want: Want) -> Result<(), Refusal> {
        match kind {
            Kind::Dir => self.volume.open_dir(inode, want),
            Kind::File => self.volume.open_file(inode, want),
        }
    }

    /// Gives back an open of an inode, a reader's or the writer's.
    pub fn close_inode(&mut self, kind: Kind, inode: u32, want: Want) -> Result<(), Refusal> {
        match kind {
            Kind::Dir => self.volume.close_dir(inode, want),
            Kind::File => self.volume.close_file(inode, want),
        }
    }

    /// How often an inode is open: its readers, and its writer.
    pub fn opens(&self, kind: Kind, inode: u32) -> usize {
        let opens = match kind {
            Kind::Dir => &self.volume.dir_opens,
            Kind::File => &self.volume.file_opens,
        };
        let record = opens.record(inode);
        (record & 0x7FFF_FFFF) as usize + (record >> 31) as usize
    }

    /// The stretches that the last changing call changed. None after a call that was refused.
    pub fn changed(&self) -> &[Change] {
        self.watch.changes()
    }

    /// Takes the last changing call back: tables and opens are as before it. Nothing where there is none to take back.
    ///
    /// The tables are tested anew, since the inner calls rest on it; this is for the rare case.
    pub fn undo(&mut self) {
        let last = std::mem::replace(&mut self.last, Last::Nothing);
        if let Last::Made(kind, inode) = last {
            self.close_inode(kind, inode, Want::Writer).expect("what was made is open");
        }
        self.watch.put_back(&mut self.volume.parts);
        let (dirs, files) = self.volume.parts.rooms();
        tree::test(self.tables(), &mut vec![0; dirs + files]).expect("the tables before the call are sound");
        if let Last::Deleted(kind, inode) = last {
            self.open_inode(kind, inode, Want::Writer).expect("what was deleted is there again");
        }
    }

    /// A changing call, with what it may change watched before it.
    fn change<T>(
        &mut self,
        watch: impl FnOnce(&mut Watch, &Parts),
        call: impl FnOnce(&mut Volume) -> Result<T, Refusal>,
        last: impl FnOnce(&T) -> Last,
    ) -> Result<T, Refusal> {
        self.last = Last::Nothing;
        self.watch.clear();
        watch(&mut self.watch, &self.volume.parts);
        let answer = call(&mut self.volume);
        match &answer {
            Ok(done) => {
                self.last = last(done);
                self.watch.keep_changed(&self.volume.parts);
            }
            Err(_) => self.watch.clear(),
        }
        answer
    }
}
