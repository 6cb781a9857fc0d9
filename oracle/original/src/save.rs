//! A save as the library's callers make one of these modules: a block table, the entry tables in two of its files, and files whose records name their first
//! block and their size.

use crate::fat::{Fat, FatFile};
use crate::fs_meta::{DirMeta, FileMeta, FsMeta};
use crate::memory::Memory;
use crate::number;
use crate::random_access_file::RandomAccessFile;
use crate::record::FileRecord;
use crate::save_ext_common::{SaveExtDir, SaveExtKey};
use std::rc::Rc;

type Fs = FsMeta<SaveExtKey, SaveExtDir, SaveExtKey, FileRecord>;
type Dir = DirMeta<SaveExtKey, SaveExtDir, SaveExtKey, FileRecord>;
type File = FileMeta<SaveExtKey, SaveExtDir, SaveExtKey, FileRecord>;
type Name = [u8; 16];

const BLOCK: usize = 512;

/// Block table, data, directory hash and file hash; and the first blocks of the two entry tables.
pub struct Save {
    files: [Rc<Memory>; 4],
    tables: [usize; 2],
    fat: Rc<Fat>,
    fs: Rc<Fs>,
}

/// What a record says: first block and size.
fn record(block: usize, size: usize) -> FileRecord {
    let mut carried = [0; 20];
    carried[4..8].copy_from_slice(&(block as u32).to_le_bytes());
    carried[8..16].copy_from_slice(&(size as u64).to_le_bytes());
    FileRecord { next: 0, carried }
}

fn of_record(info: &FileRecord) -> (usize, usize) {
    let number = |at: usize| u32::from_le_bytes(info.carried[at..at + 4].try_into().unwrap()) as usize;
    (number(4), number(8))
}

impl Save {
    /// A new save, of which nothing is written but what the modules write.
    pub fn new(blocks: usize, dirs: usize, files: usize, buckets: usize) -> Result<Save, u32> {
        let lens = [(blocks + 1) * 8, blocks * BLOCK, buckets * 4, buckets * 4];
        let memories = lens.map(|len| Rc::new(Memory::unwritten(&Rc::default(), len)));
        Fat::format(memories[0].as_ref()).map_err(number)?;
        let fat = Fat::new(memories[0].clone(), memories[1].clone(), BLOCK).map_err(number)?;
        let table = |bytes: usize| FatFile::create(fat.clone(), bytes.div_ceil(BLOCK)).map_err(number);
        let ((dir_table, dir_first), (file_table, file_first)) = (table(dirs * 40)?, table(files * 48)?);
        let [_, _, dir_hash, file_hash] = memories.clone();
        let (dir_table, file_table) = (Rc::new(dir_table), Rc::new(file_table));
        Fs::format(dir_hash, dir_table, dirs, file_hash, file_table, files).map_err(number)?;
        Save::opened(memories, [dir_first, file_first])
    }

    fn opened(files: [Rc<Memory>; 4], tables: [usize; 2]) -> Result<Save, u32> {
        let fat = Fat::new(files[0].clone(), files[1].clone(), BLOCK).map_err(number)?;
        let table = |first: usize| FatFile::open(fat.clone(), first).map(Rc::new).map_err(number);
        let [dirs, entries] = [table(tables[0])?, table(tables[1])?];
        let fs = Fs::new(files[2].clone(), dirs, files[3].clone(), entries).map_err(number)?;
        Ok(Save { files, tables, fat, fs })
    }

    /// The same bytes opened anew.
    pub fn reopen(&mut self) -> Result<(), u32> {
        *self = Save::opened(self.files.clone(), self.tables)?;
        Ok(())
    }

    pub fn bytes(&self) -> [Vec<u8>; 4] {
        self.files.clone().map(|file| file.copied())
    }
    pub fn free(&self) -> usize {
        self.fat.free_blocks()
    }

    /// The directory at a path.
    fn dir(&self, path: &[Name]) -> Result<Dir, u32> {
        let mut dir = Dir::open_ino(self.fs.clone(), 1).map_err(number)?;
        for name in path {
            dir = dir.open_sub_dir(*name).map_err(number)?;
        }
        Ok(dir)
    }

    fn file(&self, path: &[Name]) -> Result<File, u32> {
        let (name, parent) = path.split_last().unwrap();
        self.dir(parent)?.open_sub_file(*name).map_err(number)
    }

    pub fn mkdir(&self, path: &[Name]) -> Result<(), u32> {
        let (name, parent) = path.split_last().unwrap();
        let info = SaveExtDir { next: 0, sub_dir: 0, sub_file: 0, padding: 0 };
        self.dir(parent)?.new_sub_dir(*name, info).map(|_| ()).map_err(number)
    }

    /// Makes a file, or gives one that is there other bytes; there is at least one.
    pub fn put(&self, path: &[Name], bytes: &[u8]) -> Result<(), u32> {
        let blocks = bytes.len().div_ceil(BLOCK);
        match self.file(path) {
            Ok(file) => {
                file.check_exclusive().map_err(number)?;
                let (first, _) = of_record(&file.get_info().map_err(number)?);
                let mut data = FatFile::open(self.fat.clone(), first).map_err(number)?;
                data.resize(blocks).map_err(number)?;
                data.write(0, bytes).map_err(number)?;
                file.set_info(FileRecord { next: file.get_info().map_err(number)?.next, ..record(first, bytes.len()) }).map_err(number)
            }
            Err(10) => {
                let (name, parent) = path.split_last().unwrap();
                let parent = self.dir(parent)?;
                let (data, first) = FatFile::create(self.fat.clone(), blocks).map_err(number)?;
                data.write(0, bytes).map_err(number)?;
                match parent.new_sub_file(*name, record(first, bytes.len())) {
                    Ok(_) => Ok(()),
                    Err(error) => data.delete().map_err(number).and(Err(number(error))),
                }
            }
            Err(error) => Err(error),
        }
    }

    pub fn get(&self, path: &[Name]) -> Result<Vec<u8>, u32> {
        let (first, size) = of_record(&self.file(path)?.get_info().map_err(number)?);
        let mut bytes = vec![0; size];
        FatFile::open(self.fat.clone(), first).and_then(|data| data.read(0, &mut bytes)).map_err(number)?;
        Ok(bytes)
    }

    pub fn remove(&self, path: &[Name]) -> Result<(), u32> {
        let file = self.file(path)?;
        let (first, _) = of_record(&file.get_info().map_err(number)?);
        let data = FatFile::open(self.fat.clone(), first).map_err(number)?;
        file.delete().map_err(number)?;
        data.delete().map_err(number)
    }

    pub fn rmdir(&self, path: &[Name]) -> Result<(), u32> {
        self.dir(path)?.delete().map_err(number)
    }

    /// Moves a file; there is none yet where it goes.
    pub fn rename(&self, path: &[Name], to: &[Name]) -> Result<(), u32> {
        let mut file = self.file(path)?;
        let (name, parent) = to.split_last().unwrap();
        file.rename(&self.dir(parent)?, *name).map_err(number)
    }

    /// Names of directories, then of files, in list order.
    pub fn list(&self, path: &[Name]) -> Result<[Vec<Name>; 2], u32> {
        let dir = self.dir(path)?;
        let names = |list: Vec<(Name, u32)>| list.into_iter().map(|(name, _)| name).collect();
        Ok([names(dir.list_sub_dir().map_err(number)?), names(dir.list_sub_file().map_err(number)?)])
    }
}
