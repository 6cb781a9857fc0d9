//! Entries of other widths, as a title database has them: the original's own module takes them, which stays beside ours for that. Ours refuses them when it is
//! compiled: the feature `other_widths` asks for it.

#[cfg(feature = "other_widths")]
use crate::fs_meta as widths;
#[cfg(all(our_meta, not(feature = "other_widths")))]
use crate::fs_meta_beside as widths;
#[cfg(not(any(our_meta, feature = "other_widths")))]
use crate::fs_meta as widths;

use crate::memory::Memory;
use crate::number;
use byte_struct::ByteStruct;
use std::rc::Rc;
use widths::{DirInfo, DirMeta, FileInfo, FsMeta, ParentedKey};

/// A key of 12 bytes.
#[derive(ByteStruct, Clone, PartialEq)]
#[byte_struct_le]
struct Key {
    parent: u32,
    title: u64,
}

impl ParentedKey for Key {
    type NameType = u64;
    fn get_parent(&self) -> u32 {
        self.parent
    }
    fn get_name(&self) -> u64 {
        self.title
    }
    fn new(parent: u32, title: u64) -> Key {
        Key { parent, title }
    }
}

#[derive(ByteStruct, Clone)]
#[byte_struct_le]
struct Dir {
    next: u32,
    sub_dir: u32,
    sub_file: u32,
}

impl DirInfo for Dir {
    fn set_sub_dir(&mut self, index: u32) {
        self.sub_dir = index;
    }
    fn get_sub_dir(&self) -> u32 {
        self.sub_dir
    }
    fn set_sub_file(&mut self, index: u32) {
        self.sub_file = index;
    }
    fn get_sub_file(&self) -> u32 {
        self.sub_file
    }
    fn set_next(&mut self, index: u32) {
        self.next = index;
    }
    fn get_next(&self) -> u32 {
        self.next
    }
    fn new_root() -> Dir {
        Dir { next: 0, sub_dir: 0, sub_file: 0 }
    }
}

#[derive(ByteStruct, Clone)]
#[byte_struct_le]
struct File {
    next: u32,
    size: u64,
}

impl FileInfo for File {
    fn set_next(&mut self, index: u32) {
        self.next = index;
    }
    fn get_next(&self) -> u32 {
        self.next
    }
}

/// Formats such tables, makes a file and finds it: its inode, twice.
pub fn made_and_found() -> Result<(u32, u32), u32> {
    type Fs = FsMeta<Key, Dir, Key, File>;
    let [dh, dt, fh, ft] = [8, 28 * 4, 8, 28 * 4].map(|len| Rc::new(Memory::new(&vec![0; len])));
    Fs::format(dh.clone(), dt.clone(), 4, fh.clone(), ft.clone(), 4).map_err(number)?;
    let root = DirMeta::open_ino(Fs::new(dh, dt, fh, ft).map_err(number)?, 1).map_err(number)?;
    let made = root.new_sub_file(0x0004_0000, File { next: 0, size: 9 }).map_err(number)?;
    let found = root.open_sub_file(0x0004_0000).map_err(number)?;
    Ok((made.get_ino(), found.get_ino()))
}
