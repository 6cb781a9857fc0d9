//! The tree calls of a volume.
//!
//! Safety, for each call of the library here: the tables are sound and nothing but these calls changes them, as
//! [`Volume`] says.

use super::Volume;
use crate::inner::on_tree;
use crate::refusal::{judge, Refusal};
use crate::tables::{DIR_WIDTH, FILE_WIDTH};
use crate::tree::{self, Found, Kind, Missed, Name, Stat, Want};

impl Volume {
    /// Finds a directory by parent and name.
    pub fn lookup_dir(&self, parent: u32, name: &Name) -> Result<Found, Missed> {
        tree::found(unsafe { on_tree!(mukthiban_tested_tree_lookup_dir, read self.parts, parent, name) })
    }

    /// Finds a file by parent and name.
    pub fn lookup_file(&self, parent: u32, name: &Name) -> Result<Found, Missed> {
        tree::found(unsafe { on_tree!(mukthiban_tested_tree_lookup_file, read self.parts, parent, name) })
    }

    /// Makes a directory, held by its writer.
    pub fn make_dir(&mut self, parent: u32, name: &Name, carried: &[u8; 4]) -> Result<u32, Refusal> {
        let opens = self.dir_opens.with_room();
        tree::made(unsafe {
            on_tree!(
                mukthiban_tested_tree_make_dir, change self.parts,
                opens.list.as_mut_ptr(), opens.list.len(), &mut opens.opened, parent, name, carried,
            )
        })
    }

    /// Makes a file entry, held by its writer.
    pub fn make_file(&mut self, parent: u32, name: &Name, carried: &[u8; 20]) -> Result<u32, Refusal> {
        let opens = self.file_opens.with_room();
        tree::made(unsafe {
            on_tree!(
                mukthiban_tested_tree_make_file, change self.parts,
                opens.list.as_mut_ptr(), opens.list.len(), &mut opens.opened, parent, name, carried,
            )
        })
    }

    /// Gives a directory that a writer holds another parent and name. Readers do not keep it off.
    pub fn rename_dir(&mut self, inode: u32, parent: u32, name: &Name) -> Result<(), Refusal> {
        let r = unsafe {
            on_tree!(
                mukthiban_tested_tree_rename_dir, change self.parts,
                self.dir_opens.list.as_ptr(), self.dir_opens.list.len(), &self.dir_opens.opened, inode, parent, name,
            )
        };
        judge(r.answer)
    }

    /// Gives a file that a writer holds another parent and name. Readers do not keep it off.
    pub fn rename_file(&mut self, inode: u32, parent: u32, name: &Name) -> Result<(), Refusal> {
        let r = unsafe {
            on_tree!(
                mukthiban_tested_tree_rename_file, change self.parts,
                self.file_opens.list.as_ptr(), self.file_opens.list.len(), &self.file_opens.opened, inode, parent, name,
            )
        };
        judge(r.answer)
    }

    /// Deletes a directory without children that its writer holds and no reader.
    pub fn delete_dir(&mut self, inode: u32) -> Result<(), Refusal> {
        let opens = &mut self.dir_opens;
        let r = unsafe {
            on_tree!(
                mukthiban_tested_tree_delete_dir, change self.parts,
                opens.list.as_mut_ptr(), opens.list.len(), &mut opens.opened, inode,
            )
        };
        judge(r.answer)
    }

    /// Deletes a file entry that its writer holds and no reader. Its blocks are given back by [`Volume::delete`].
    pub fn delete_file(&mut self, inode: u32) -> Result<(), Refusal> {
        let opens = &mut self.file_opens;
        let r = unsafe {
            on_tree!(
                mukthiban_tested_tree_delete_file, change self.parts,
                opens.list.as_mut_ptr(), opens.list.len(), &mut opens.opened, inode,
            )
        };
        judge(r.answer)
    }

    /// The directories in a directory, in list order.
    pub fn list_dirs(&self, inode: u32) -> Result<Vec<u32>, Refusal> {
        whole_list(|list| {
            tree::listed(unsafe {
                on_tree!(mukthiban_tested_tree_list_dirs, read self.parts, inode, list.as_mut_ptr(), list.len())
            })
        })
    }

    /// The files in a directory, in list order.
    pub fn list_files(&self, inode: u32) -> Result<Vec<u32>, Refusal> {
        whole_list(|list| {
            tree::listed(unsafe {
                on_tree!(mukthiban_tested_tree_list_files, read self.parts, inode, list.as_mut_ptr(), list.len())
            })
        })
    }

    /// Entries in all and entries still free, of both tables.
    pub fn stat(&self) -> Result<Stat, Refusal> {
        tree::stated(unsafe { on_tree!(mukthiban_tested_tree_stat, read self.parts) })
    }

    /// An entry by which no honest writer can have left the tables, if there is one: see [`tree::aged`].
    pub fn aged(&self) -> Option<(Kind, u32)> {
        let tables = self.parts.tables();
        let rooms = tables.dir_table.len() / DIR_WIDTH + tables.file_table.len() / FILE_WIDTH;
        tree::aged(tables, &mut vec![0; rooms]).expect("the tables are sound")
    }

    /// The name of a live inode.
    pub fn name(&self, kind: Kind, inode: u32) -> Result<&Name, Refusal> {
        let r = unsafe { on_tree!(mukthiban_tested_tree_name, read self.parts, kind as u32, inode) };
        judge(r.answer)?;
        let table = match kind {
            Kind::Dir => &self.parts.dir_table,
            Kind::File => &self.parts.file_table,
        };
        Ok(tree::name_at(table, r.offset))
    }

    /// A directory's 4 carried bytes.
    pub fn carried_dir(&self, inode: u32) -> Result<[u8; 4], Refusal> {
        let mut carried = [0; 4];
        let r = unsafe { on_tree!(mukthiban_tested_tree_carried_dir, read self.parts, inode, &mut carried) };
        judge(r.answer)?;
        Ok(carried)
    }

    /// A file's 20 carried bytes.
    pub fn carried_file(&self, inode: u32) -> Result<[u8; 20], Refusal> {
        let mut carried = [0; 20];
        let r = unsafe { on_tree!(mukthiban_tested_tree_carried_file, read self.parts, inode, &mut carried) };
        judge(r.answer)?;
        Ok(carried)
    }

    /// Sets a directory's 4 carried bytes.
    pub fn set_carried_dir(&mut self, inode: u32, carried: &[u8; 4]) -> Result<(), Refusal> {
        let r = unsafe { on_tree!(mukthiban_tested_tree_set_carried_dir, change self.parts, inode, carried) };
        judge(r.answer)
    }

    /// Sets a file's 20 carried bytes.
    pub fn set_carried_file(&mut self, inode: u32, carried: &[u8; 20]) -> Result<(), Refusal> {
        let r = unsafe { on_tree!(mukthiban_tested_tree_set_carried_file, change self.parts, inode, carried) };
        judge(r.answer)
    }

    /// Opens a directory once more: a reader to read, the writer to rename or delete.
    pub fn open_dir(&mut self, inode: u32, want: Want) -> Result<(), Refusal> {
        let opens = self.dir_opens.with_room();
        let r = unsafe {
            on_tree!(
                mukthiban_tested_tree_open_dir, read self.parts,
                opens.list.as_mut_ptr(), opens.list.len(), &mut opens.opened, inode, want as u32,
            )
        };
        judge(r.answer)
    }

    /// Opens a file once more: a reader to read, the writer to change.
    pub fn open_file(&mut self, inode: u32, want: Want) -> Result<(), Refusal> {
        let opens = self.file_opens.with_room();
        let r = unsafe {
            on_tree!(
                mukthiban_tested_tree_open_file, read self.parts,
                opens.list.as_mut_ptr(), opens.list.len(), &mut opens.opened, inode, want as u32,
            )
        };
        judge(r.answer)
    }

    /// Gives back an open of a directory, a reader's or the writer's.
    pub fn close_dir(&mut self, inode: u32, want: Want) -> Result<(), Refusal> {
        let opens = &mut self.dir_opens;
        let r = unsafe {
            on_tree!(
                mukthiban_tested_tree_close_dir, read self.parts,
                opens.list.as_mut_ptr(), opens.list.len(), &mut opens.opened, inode, want as u32,
            )
        };
        judge(r.answer)
    }

    /// Gives back an open of a file, a reader's or the writer's.
    pub fn close_file(&mut self, inode: u32, want: Want) -> Result<(), Refusal> {
        let opens = &mut self.file_opens;
        let r = unsafe {
            on_tree!(
                mukthiban_tested_tree_close_file, read self.parts,
                opens.list.as_mut_ptr(), opens.list.len(), &mut opens.opened, inode, want as u32,
            )
        };
        judge(r.answer)
    }
}

/// A listing of any length: asked for again with more room until it fits.
fn whole_list(mut list_into: impl FnMut(&mut [u32]) -> Result<usize, Refusal>) -> Result<Vec<u32>, Refusal> {
    let mut list = vec![0; 64];
    loop {
        match list_into(&mut list) {
            Ok(count) => {
                list.truncate(count);
                return Ok(list);
            }
            Err(Refusal::ListTooShort) => list = vec![0; list.len() * 4],
            Err(refusal) => return Err(refusal),
        }
    }
}
