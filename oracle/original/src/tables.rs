//! The original's entry tables over four files in memory, with the handles that a session keeps.

use crate::fs_meta::{DirMeta, FileMeta, FsMeta};
use crate::memory::Memory;
use crate::number;
use crate::record::FileRecord;
use crate::save_ext_common::{SaveExtDir, SaveExtKey};
use crate::wire::Wire;
use crate::Failure;
use std::collections::HashMap;
use std::rc::Rc;

type Fs = FsMeta<SaveExtKey, SaveExtDir, SaveExtKey, FileRecord>;
type Dir = DirMeta<SaveExtKey, SaveExtDir, SaveExtKey, FileRecord>;
type File = FileMeta<SaveExtKey, SaveExtDir, SaveExtKey, FileRecord>;
type Name = [u8; 16];

pub struct Tables {
    wire: Rc<Wire>,
    four: [Rc<Memory>; 4],
    fs: Rc<Fs>,
    dirs: HashMap<u32, Vec<Dir>>,
    files: HashMap<u32, Vec<File>>,
}

fn memories(wire: &Rc<Wire>, four: [&[u8]; 4]) -> [Rc<Memory>; 4] {
    four.map(|bytes| Rc::new(Memory::on(wire, bytes, false)))
}

fn opened(m: &[Rc<Memory>; 4]) -> Result<Rc<Fs>, u32> {
    Fs::new(m[0].clone(), m[1].clone(), m[2].clone(), m[3].clone()).map_err(number)
}

fn formatted(m: &[Rc<Memory>; 4], dir_max: usize, file_max: usize) -> Result<(), u32> {
    Fs::format(m[0].clone(), m[1].clone(), dir_max, m[2].clone(), m[3].clone(), file_max).map_err(number)
}

impl Tables {
    /// Formats four tables (directory hash and table, file hash and table), and gives their bytes afterwards.
    pub fn format(four: [&[u8]; 4], dir_max: usize, file_max: usize) -> (Result<(), u32>, [Vec<u8>; 4]) {
        let m = memories(&Rc::default(), four);
        let answer = formatted(&m, dir_max, file_max);
        (answer, m.map(|memory| memory.copied()))
    }

    pub fn open(four: [&[u8]; 4]) -> Result<Tables, u32> {
        let wire = Rc::default();
        let m = memories(&wire, four);
        Ok(Tables { fs: opened(&m)?, wire, four: m, dirs: HashMap::new(), files: HashMap::new() })
    }

    /// Tables of those lengths of which nothing was written yet but what format writes.
    pub fn unwritten(lens: [usize; 4], dir_max: usize, file_max: usize) -> Result<Tables, u32> {
        let wire = Rc::default();
        let m = lens.map(|len| Rc::new(Memory::unwritten(&wire, len)));
        formatted(&m, dir_max, file_max)?;
        Ok(Tables { fs: opened(&m)?, wire, four: m, dirs: HashMap::new(), files: HashMap::new() })
    }

    /// The same bytes seen anew: every handle is dropped.
    pub fn reopen(&mut self) -> Result<(), u32> {
        self.drop_handles();
        self.fs = opened(&self.four)?;
        Ok(())
    }

    /// From now on calls of the four files fail as it is said, or no more.
    pub fn fail(&self, failure: Option<Failure>) {
        self.wire.fail(failure);
    }

    pub fn four(&self) -> [Vec<u8>; 4] {
        self.four.clone().map(|memory| memory.copied())
    }
    pub fn holds(&self, four: [&[u8]; 4]) -> bool {
        self.four.iter().zip(four).all(|(memory, bytes)| memory.holds(bytes))
    }
    /// Puts other bytes of the same lengths into the four files, behind the original's back.
    pub fn set(&self, four: [&[u8]; 4]) {
        for (memory, bytes) in self.four.iter().zip(four) {
            memory.set(bytes);
        }
    }

    pub fn drop_handles(&mut self) {
        self.dirs.clear();
        self.files.clear();
    }

    fn dir(&self, ino: u32) -> Result<Dir, u32> {
        Dir::open_ino(self.fs.clone(), ino).map_err(number)
    }
    fn file(&self, ino: u32) -> Result<File, u32> {
        File::open_ino(self.fs.clone(), ino).map_err(number)
    }

    /// Opens an inode that is there; the original opens any.
    pub fn open_dir(&mut self, ino: u32) {
        self.try_open_dir(ino).unwrap();
    }
    pub fn open_file(&mut self, ino: u32) {
        self.try_open_file(ino).unwrap();
    }
    pub fn try_open_dir(&mut self, ino: u32) -> Result<(), u32> {
        let handle = self.dir(ino)?;
        self.dirs.entry(ino).or_default().push(handle);
        Ok(())
    }
    pub fn try_open_file(&mut self, ino: u32) -> Result<(), u32> {
        let handle = self.file(ino)?;
        self.files.entry(ino).or_default().push(handle);
        Ok(())
    }
    /// Drops the oldest of the handles that are held.
    pub fn close_dir(&mut self, ino: u32) {
        self.dirs.get_mut(&ino).unwrap().remove(0);
    }
    pub fn close_file(&mut self, ino: u32) {
        self.files.get_mut(&ino).unwrap().remove(0);
    }
    pub fn dir_opens(&self, ino: u32) -> u32 {
        self.fs.dir_opens(ino)
    }
    pub fn file_opens(&self, ino: u32) -> u32 {
        self.fs.file_opens(ino)
    }

    pub fn lookup_dir(&self, parent: u32, name: Name) -> Result<u32, u32> {
        let found = self.dir(parent)?.open_sub_dir(name).map_err(number)?;
        Ok(found.get_ino())
    }
    pub fn lookup_file(&self, parent: u32, name: Name) -> Result<u32, u32> {
        let found = self.dir(parent)?.open_sub_file(name).map_err(number)?;
        Ok(found.get_ino())
    }

    /// The new handle is kept. The links in what is handed over are junk, which the original must overwrite.
    pub fn make_dir(&mut self, parent: u32, name: Name, padding: [u8; 4]) -> Result<u32, u32> {
        let info = SaveExtDir {
            next: 0xAAAA_AAAA,
            sub_dir: 0xBBBB_BBBB,
            sub_file: 0xCCCC_CCCC,
            padding: u32::from_le_bytes(padding),
        };
        let made = self.dir(parent)?.new_sub_dir(name, info).map_err(number)?;
        let ino = made.get_ino();
        self.dirs.entry(ino).or_default().push(made);
        Ok(ino)
    }
    pub fn make_file(&mut self, parent: u32, name: Name, carried: [u8; 20]) -> Result<u32, u32> {
        let info = FileRecord { next: 0xAAAA_AAAA, carried };
        let made = self.dir(parent)?.new_sub_file(name, info).map_err(number)?;
        let ino = made.get_ino();
        self.files.entry(ino).or_default().push(made);
        Ok(ino)
    }

    /// By a handle that is held.
    pub fn rename_dir(&mut self, ino: u32, parent: u32, name: Name) -> Result<(), u32> {
        let parent = self.dir(parent)?;
        let handle = self.dirs.get_mut(&ino).unwrap().last_mut().unwrap();
        handle.rename(&parent, name).map_err(number)
    }
    pub fn rename_file(&mut self, ino: u32, parent: u32, name: Name) -> Result<(), u32> {
        let parent = self.dir(parent)?;
        let handle = self.files.get_mut(&ino).unwrap().last_mut().unwrap();
        handle.rename(&parent, name).map_err(number)
    }

    /// The handle is used up, whatever the answer.
    pub fn delete_dir(&mut self, ino: u32) -> Result<(), u32> {
        let handle = self.dirs.get_mut(&ino).unwrap().pop().unwrap();
        handle.delete().map_err(number)
    }
    pub fn delete_file(&mut self, ino: u32) -> Result<(), u32> {
        let handle = self.files.get_mut(&ino).unwrap().pop().unwrap();
        handle.delete().map_err(number)
    }

    /// Names and inodes in list order.
    pub fn list_dirs(&self, ino: u32) -> Result<Vec<(Name, u32)>, u32> {
        self.dir(ino)?.list_sub_dir().map_err(number)
    }
    pub fn list_files(&self, ino: u32) -> Result<Vec<(Name, u32)>, u32> {
        self.dir(ino)?.list_sub_file().map_err(number)
    }

    pub fn dir_parent(&self, ino: u32) -> Result<u32, u32> {
        self.dir(ino)?.get_parent_ino().map_err(number)
    }
    pub fn file_parent(&self, ino: u32) -> Result<u32, u32> {
        self.file(ino)?.get_parent_ino().map_err(number)
    }

    /// Total and free of directories, then of files.
    pub fn stat(&self) -> Result<[usize; 4], u32> {
        let stat = self.fs.stat().map_err(number)?;
        Ok([stat.dirs.total, stat.dirs.free, stat.files.total, stat.files.free])
    }

    pub fn carried_file(&self, ino: u32) -> Result<[u8; 20], u32> {
        Ok(self.file(ino)?.get_info().map_err(number)?.carried)
    }
    /// Sets the carried bytes and leaves the link that stands there.
    pub fn set_carried_file(&self, ino: u32, carried: [u8; 20]) -> Result<(), u32> {
        let mut info = self.file(ino)?.get_info().map_err(number)?;
        info.carried = carried;
        self.file(ino)?.set_info(info).map_err(number)
    }
    /// Sets the whole record, the link included, as the original allows.
    pub fn set_info_file(&self, ino: u32, next: u32, carried: [u8; 20]) -> Result<(), u32> {
        let info = FileRecord { next, carried };
        self.file(ino)?.set_info(info).map_err(number)
    }
}
