// The entry tables of a volume over the proved library, in the place of the original's `fs_meta.rs`: the same names and
// signatures. `docs/SAVE3DS.md` says what differs.
//
// The four tables are read and tested once, when they are opened, and kept. Every change is made by a proved call on the
// kept tables; what it changed is then written, and nothing else.

use crate::error::*;
use crate::random_access_file::*;
use byte_struct::*;
use mukthiban::tree::{self, TablesMut, DIR_WIDTH, FILE_WIDTH};
use mukthiban::{Kind, Name};
use std::marker::PhantomData;
use std::rc::Rc;
use store::{refuse, table_most, zeros, Store, Ticket, HASH_MOST};

#[path = "fs_meta_store.rs"]
mod store;

/// Where a table stands: an offset, or a file of the block table.
#[derive(ByteStruct)]
#[byte_struct_le]
pub struct OffsetOrFatFile {
    pub block_index: u32,
    pub block_count: u32,
}

impl OffsetOrFatFile {
    pub fn from_offset(offset: u64) -> OffsetOrFatFile {
        OffsetOrFatFile { block_index: offset as u32, block_count: (offset >> 32) as u32 }
    }

    pub fn to_offset(&self) -> u64 {
        u64::from(self.block_count) << 32 | u64::from(self.block_index)
    }
}

/// Where the parts of a volume stand.
#[derive(ByteStruct)]
#[byte_struct_le]
pub struct FsInfo {
    pub unknown: u32,
    pub block_len: u32,
    pub dir_hash_offset: u64,
    pub dir_buckets: u32,
    pub p0: u32,
    pub file_hash_offset: u64,
    pub file_buckets: u32,
    pub p1: u32,
    pub fat_offset: u64,
    pub fat_size: u32,
    pub p2: u32,
    pub data_offset: u64,
    pub data_block_count: u32,
    pub p3: u32,
    pub dir_table: OffsetOrFatFile,
    pub max_dir: u32,
    pub p4: u32,
    pub file_table: OffsetOrFatFile,
    pub max_file: u32,
    pub p5: u32,
}

pub struct MetaTableStat {
    pub total: usize,
    pub free: usize,
}

pub struct MetaStat {
    pub dirs: MetaTableStat,
    pub files: MetaTableStat,
}

/// The key of an entry: its parent's inode, then its name.
pub trait ParentedKey: ByteStruct + PartialEq + Clone {
    type NameType: PartialEq + Default;
    fn get_parent(&self) -> u32;
    fn get_name(&self) -> Self::NameType;
    fn new(parent: u32, name: Self::NameType) -> Self;
    fn new_root() -> Self {
        Self::new(0, Self::NameType::default())
    }
}

/// What a file's entry holds beside its key: `next`, the next file of its directory, then what it carries.
pub trait FileInfo: ByteStruct + Clone {
    fn set_next(&mut self, index: u32);
    fn get_next(&self) -> u32;
}

/// What a directory's entry holds beside its key: `next`, its first directory, its first file, then what it carries.
pub trait DirInfo: ByteStruct + Clone {
    fn set_sub_dir(&mut self, index: u32);
    fn get_sub_dir(&self) -> u32;
    fn set_sub_file(&mut self, index: u32);
    fn get_sub_file(&self) -> u32;
    fn set_next(&mut self, index: u32);
    fn get_next(&self) -> u32;

    /// What the root's entry holds.
    fn new_root() -> Self;
}

/// The bytes that a key, a directory's info and a file's info have.
const KEY: usize = 20;
const DIR_INFO: usize = DIR_WIDTH - KEY - 4;
const FILE_INFO: usize = FILE_WIDTH - KEY - 4;

/// The 16 bytes of a name.
fn name_bytes<Key: ParentedKey>(name: Key::NameType) -> Name {
    let mut bytes = [0; KEY];
    Key::new(0, name).write_bytes(&mut bytes);
    std::array::from_fn(|i| bytes[4 + i])
}

/// What a file carries: its info but for `next`.
fn file_carried(info: &impl FileInfo) -> [u8; 20] {
    let mut bytes = [0; FILE_INFO];
    info.write_bytes(&mut bytes);
    std::array::from_fn(|i| bytes[4 + i])
}

/// The directories and files of a volume: names and places, without any file's data.
pub struct FsMeta<DirKeyType, DirInfoType, FileKeyType, FileInfoType> {
    store: Rc<Store>,
    phantom: PhantomData<(DirKeyType, DirInfoType, FileKeyType, FileInfoType)>,
}

impl<DirKeyType: ParentedKey, DirInfoType: DirInfo, FileKeyType: ParentedKey, FileInfoType: FileInfo>
    FsMeta<DirKeyType, DirInfoType, FileKeyType, FileInfoType>
{
    /// Told apart when it is compiled.
    const WIDTHS: () = assert!(
        DirKeyType::BYTE_LEN == KEY
            && FileKeyType::BYTE_LEN == KEY
            && DirInfoType::BYTE_LEN == DIR_INFO
            && FileInfoType::BYTE_LEN == FILE_INFO,
        "this fs_meta is for directory entries of 40 bytes and file entries of 48; for other widths keep the original's \
         module beside it (docs/SAVE3DS.md, Other widths)"
    );

    /// Makes an empty tree: the root directory alone.
    pub fn format(
        dir_hash: Rc<dyn RandomAccessFile>,
        dir_table: Rc<dyn RandomAccessFile>,
        dir_entry_count: usize,
        file_hash: Rc<dyn RandomAccessFile>,
        file_table: Rc<dyn RandomAccessFile>,
        file_entry_count: usize,
    ) -> Result<(), Error> {
        let () = Self::WIDTHS;
        let mut dirs = (zeros(&*dir_hash, HASH_MOST)?, zeros(&*dir_table, table_most(DIR_WIDTH))?);
        let mut files = (zeros(&*file_hash, HASH_MOST)?, zeros(&*file_table, table_most(FILE_WIDTH))?);
        let mut tables = TablesMut {
            dir_hash: &mut dirs.0,
            dir_table: &mut dirs.1,
            file_hash: &mut files.0,
            file_table: &mut files.1,
        };
        tree::format(&mut tables, dir_entry_count, file_entry_count).or_else(refuse)?;
        // Both hashes, both entries 0, and the root: the rest is not read before it is made.
        dir_hash.write(0, &dirs.0)?;
        dir_table.write(0, &dirs.1[..2 * DIR_WIDTH])?;
        file_hash.write(0, &files.0)?;
        file_table.write(0, &files.1[..FILE_WIDTH])
    }

    /// Opens four tables. Tables that are not sound are `InvalidValue`.
    pub fn new(
        dir_hash: Rc<dyn RandomAccessFile>,
        dir_table: Rc<dyn RandomAccessFile>,
        file_hash: Rc<dyn RandomAccessFile>,
        file_table: Rc<dyn RandomAccessFile>,
    ) -> Result<Rc<Self>, Error> {
        let () = Self::WIDTHS;
        let store = Rc::new(Store::open([dir_hash, dir_table, file_hash, file_table])?);
        Ok(Rc::new(FsMeta { store, phantom: PhantomData }))
    }

    pub fn stat(&self) -> Result<MetaStat, Error> {
        let stat = self.store.kept.borrow().stat().or_else(refuse)?;
        let of = |room: tree::Room| MetaTableStat { total: room.total, free: room.free };
        Ok(MetaStat { dirs: of(stat.dirs), files: of(stat.files) })
    }
}

/// A handle to a file's entry. While it is there the file is open.
pub struct FileMeta<DirKeyType, DirInfoType, FileKeyType, FileInfoType> {
    ticket: Ticket,
    fs: Rc<FsMeta<DirKeyType, DirInfoType, FileKeyType, FileInfoType>>,
}

impl<DirKeyType: ParentedKey, DirInfoType: DirInfo, FileKeyType: ParentedKey, FileInfoType: FileInfo>
    FileMeta<DirKeyType, DirInfoType, FileKeyType, FileInfoType>
{
    /// Opens the file at the specified inode.
    pub fn open_ino(
        fs: Rc<FsMeta<DirKeyType, DirInfoType, FileKeyType, FileInfoType>>,
        ino: u32,
    ) -> Result<Self, Error> {
        let ticket = Ticket::hold(&fs.store, Kind::File, ino)?;
        Ok(FileMeta { ticket, fs })
    }

    /// Renames and/or changes the parent of the file. Where this is refused nothing has changed.
    pub fn rename(
        &mut self,
        parent: &DirMeta<DirKeyType, DirInfoType, FileKeyType, FileInfoType>,
        name: FileKeyType::NameType,
    ) -> Result<(), Error> {
        self.ticket.rename(&parent.ticket, &name_bytes::<FileKeyType>(name))
    }

    pub fn get_parent_ino(&self) -> Result<u32, Error> {
        self.ticket.get_parent_ino::<FileKeyType>()
    }

    pub fn get_ino(&self) -> u32 {
        self.ticket.ino
    }

    pub fn get_info(&self) -> Result<FileInfoType, Error> {
        let info = |entry: &[u8]| FileInfoType::read_bytes(&entry[KEY..KEY + FILE_INFO]);
        self.fs.store.entry(Kind::File, self.ticket.ino, info)
    }

    /// Sets what the file carries; its link stays as it is.
    pub fn set_info(&self, info: FileInfoType) -> Result<(), Error> {
        let carried = file_carried(&info);
        self.fs.store.change(|kept| kept.set_carried_file(self.ticket.ino, &carried))
    }

    pub fn delete(self) -> Result<(), Error> {
        self.ticket.delete()
    }

    pub fn check_exclusive(&self) -> Result<(), Error> {
        self.ticket.check_exclusive()
    }
}

/// A handle to a directory's entry. While it is there the directory is open.
pub struct DirMeta<DirKeyType, DirInfoType, FileKeyType, FileInfoType> {
    ticket: Ticket,
    fs: Rc<FsMeta<DirKeyType, DirInfoType, FileKeyType, FileInfoType>>,
}

impl<DirKeyType: ParentedKey, DirInfoType: DirInfo, FileKeyType: ParentedKey, FileInfoType: FileInfo>
    DirMeta<DirKeyType, DirInfoType, FileKeyType, FileInfoType>
{
    /// Opens the directory at the specified inode. Inode 1 represents the root directory.
    pub fn open_ino(
        fs: Rc<FsMeta<DirKeyType, DirInfoType, FileKeyType, FileInfoType>>,
        ino: u32,
    ) -> Result<Self, Error> {
        let ticket = Ticket::hold(&fs.store, Kind::Dir, ino)?;
        Ok(DirMeta { ticket, fs })
    }

    /// Renames and/or changes the parent of the directory. Where this is refused nothing has changed.
    pub fn rename(
        &mut self,
        parent: &DirMeta<DirKeyType, DirInfoType, FileKeyType, FileInfoType>,
        name: DirKeyType::NameType,
    ) -> Result<(), Error> {
        self.ticket.rename(&parent.ticket, &name_bytes::<DirKeyType>(name))
    }

    pub fn get_parent_ino(&self) -> Result<u32, Error> {
        self.ticket.get_parent_ino::<DirKeyType>()
    }

    pub fn get_ino(&self) -> u32 {
        self.ticket.ino
    }

    pub fn open_sub_dir(&self, name: DirKeyType::NameType) -> Result<Self, Error> {
        let name = name_bytes::<DirKeyType>(name);
        let ticket = Ticket::find(&self.fs.store, Kind::Dir, self.ticket.ino, &name)?;
        Ok(DirMeta { ticket, fs: self.fs.clone() })
    }

    pub fn open_sub_file(
        &self,
        name: FileKeyType::NameType,
    ) -> Result<FileMeta<DirKeyType, DirInfoType, FileKeyType, FileInfoType>, Error> {
        let name = name_bytes::<FileKeyType>(name);
        let ticket = Ticket::find(&self.fs.store, Kind::File, self.ticket.ino, &name)?;
        Ok(FileMeta { ticket, fs: self.fs.clone() })
    }

    pub fn list_sub_dir(&self) -> Result<Vec<(DirKeyType::NameType, u32)>, Error> {
        self.fs.store.list::<DirKeyType>(Kind::Dir, self.ticket.ino)
    }

    pub fn list_sub_file(&self) -> Result<Vec<(FileKeyType::NameType, u32)>, Error> {
        self.fs.store.list::<FileKeyType>(Kind::File, self.ticket.ino)
    }

    /// Makes a directory. Of `info` it keeps what the directory carries.
    pub fn new_sub_dir(&self, name: DirKeyType::NameType, info: DirInfoType) -> Result<Self, Error> {
        let mut bytes = [0; DIR_INFO];
        info.write_bytes(&mut bytes);
        let carried = std::array::from_fn(|i| bytes[12 + i]);
        let name = name_bytes::<DirKeyType>(name);
        let ticket = Ticket::make_dir(&self.fs.store, self.ticket.ino, &name, &carried)?;
        Ok(DirMeta { ticket, fs: self.fs.clone() })
    }

    /// Makes a file. Of `info` it keeps what the file carries.
    pub fn new_sub_file(
        &self,
        name: FileKeyType::NameType,
        info: FileInfoType,
    ) -> Result<FileMeta<DirKeyType, DirInfoType, FileKeyType, FileInfoType>, Error> {
        let (name, carried) = (name_bytes::<FileKeyType>(name), file_carried(&info));
        let ticket = Ticket::make_file(&self.fs.store, self.ticket.ino, &name, &carried)?;
        Ok(FileMeta { ticket, fs: self.fs.clone() })
    }

    pub fn delete(self) -> Result<(), Error> {
        self.ticket.delete()
    }
}
