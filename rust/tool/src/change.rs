//! A volume that is being changed. All is done in memory, tested, and then put in place at once; a refusal leaves the
//! volume as it was.

use crate::fail::{Fail, Outcome};
use crate::session::Session;
use crate::tree::stretches;
use mukthiban::folder::{Access, Folder, Written};
use mukthiban::{Kind, Name, Record, Refusal, Volume, Want};
use std::path::{Path, PathBuf};
use std::time::Duration;

/// An open volume with its folder, and the blocks' bytes that are to be written.
pub struct Change {
    pub session: Session,
    folder: Folder,
    path: PathBuf,
    written: Vec<(u32, Vec<u8>)>,
}

impl Change {
    /// The volume at that path, which nobody else may change meanwhile. One whose block length is not in use is not changed
    /// in any way: the library refuses what concerns its blocks, and so nothing else is begun. The blocks' bytes are not read: what is written
    /// to them goes to the folder alone.
    pub fn open(path: &Path, wait: Duration) -> Outcome<Change> {
        let folder = Folder::open(path, Access::Change, wait).map_err(|e| Fail::folder(&e))?;
        let session = Session::load(&folder)?.map_err(|refused| refused.fail(path))?;
        session.must_be_sound(path)?;
        if session.volume.is_read_only() {
            return Err(Fail::refused(&path.display().to_string(), Refusal::ReadOnlyVolume));
        }
        Ok(Change { session, folder, path: path.into(), written: Vec::new() })
    }

    /// Tests the changed volume once more, whole, and puts it in its place.
    pub fn save(self) -> Outcome<()> {
        let again = Session::open(self.session.volume.into_parts()).map_err(|no| no.fail(&self.path))?;
        again.must_be_sound(&self.path)?;
        self.folder.save(again.volume.parts(), Written::These(&self.written)).map_err(|e| Fail::folder(&e))
    }

    fn volume(&mut self) -> &mut Volume {
        &mut self.session.volume
    }

    pub fn block_len(&self) -> usize {
        self.session.volume.parts().block_len
    }

    /// Bytes for a chain, and zeros behind them to the end of its last block.
    fn fill(&mut self, first_block: usize, bytes: &[u8]) -> Result<(), Refusal> {
        let block_len = self.block_len();
        let mut rest = bytes;
        for (first, blocks) in stretches(&self.session.volume.chain(first_block)?) {
            let room = blocks as usize * block_len;
            let (here, behind) = rest.split_at(room.min(rest.len()));
            let mut here = here.to_vec();
            here.resize(room, 0);
            self.written.push((first, here));
            rest = behind;
        }
        Ok(())
    }

    /// Blocks for the bytes, filled.
    fn record(&mut self, bytes: &[u8]) -> Result<Record, Refusal> {
        self.record_by(bytes, Volume::create)
    }

    /// The same in one node, as a kiosk has it.
    pub fn kiosk_record(&mut self, bytes: &[u8]) -> Result<Record, Refusal> {
        self.record_by(bytes, Volume::create_kiosk)
    }

    fn record_by(
        &mut self,
        bytes: &[u8],
        create: fn(&mut Volume, usize) -> Result<usize, Refusal>,
    ) -> Result<Record, Refusal> {
        if bytes.is_empty() {
            return Ok(Record::EMPTY);
        }
        let blocks = bytes.len().div_ceil(self.block_len());
        let first_block = create(self.volume(), blocks)?;
        self.fill(first_block, bytes)?;
        Ok(Record { first_block: first_block as u32, size: bytes.len() as u64 })
    }

    /// A new file, with what it carries beside its record.
    pub fn add(&mut self, parent: u32, name: &Name, bytes: &[u8], carried: [u8; 20]) -> Result<(), Refusal> {
        let record = self.record(bytes)?;
        self.add_record(parent, name, record, carried)
    }

    /// A new file with this record.
    pub fn add_record(
        &mut self,
        parent: u32,
        name: &Name,
        record: Record,
        mut carried: [u8; 20],
    ) -> Result<(), Refusal> {
        record.put(&mut carried);
        let inode = self.volume().make_file(parent, name, &carried)?;
        self.volume().close_file(inode, Want::Writer)
    }

    /// New bytes for a file that is there, by its writer.
    pub fn replace(&mut self, inode: u32, bytes: &[u8]) -> Result<(), Refusal> {
        self.volume().open_file(inode, Want::Writer)?;
        let mut carried = self.volume().carried_file(inode)?;
        let before = Record::of(&carried);
        let now = match (before.size, bytes.len()) {
            (0, _) => self.record(bytes)?,
            (_, 0) => {
                self.volume().delete(before.first_block as usize)?;
                Record::EMPTY
            }
            _ => {
                let (first_block, blocks) = (before.first_block as usize, bytes.len().div_ceil(self.block_len()));
                self.volume().resize(first_block, blocks)?;
                self.fill(first_block, bytes)?;
                Record { size: bytes.len() as u64, ..before }
            }
        };
        now.put(&mut carried);
        self.volume().set_carried_file(inode, &carried)?;
        self.volume().close_file(inode, Want::Writer)
    }

    /// The blocks' bytes in some stretches, as they are in the folder; zeros for all others.
    pub fn bytes(&self, stretches: &[(u32, u32)]) -> Outcome<Vec<u8>> {
        self.folder.bytes(stretches).map_err(|e| Fail::folder(&e))
    }

    /// Makes a file whole by a plan, and its record names the new first block, which is answered. The bytes of its blocks,
    /// as they are in the folder, go to the targets: so this comes before any other change to them.
    pub fn make_whole(&mut self, inode: u32, plan: &[u32], bytes: &[u8]) -> Result<u32, Refusal> {
        let block_len = self.block_len();
        let mut carried = self.volume().carried_file(inode)?;
        let before = Record::of(&carried);
        let first_block = self.volume().make_whole(before.first_block as usize, plan)? as u32;
        let sources = plan.chunks_exact(2).map(|two| two[0] as usize);
        let moved = sources.flat_map(|block| &bytes[block * block_len..][..block_len]).copied().collect();
        self.written.push((first_block, moved));
        Record { first_block, ..before }.put(&mut carried);
        self.volume().set_carried_file(inode, &carried)?;
        Ok(first_block)
    }

    /// A new directory, and its inode.
    pub fn make_dir(&mut self, parent: u32, name: &Name, carried: [u8; 4]) -> Result<u32, Refusal> {
        let inode = self.volume().make_dir(parent, name, &carried)?;
        self.volume().close_dir(inode, Want::Writer)?;
        Ok(inode)
    }

    /// Another directory and name for a file or a directory.
    pub fn rename(&mut self, kind: Kind, inode: u32, parent: u32, name: &Name) -> Result<(), Refusal> {
        let volume = self.volume();
        match kind {
            Kind::Dir => {
                volume.open_dir(inode, Want::Writer)?;
                volume.rename_dir(inode, parent, name)?;
                volume.close_dir(inode, Want::Writer)
            }
            Kind::File => {
                volume.open_file(inode, Want::Writer)?;
                volume.rename_file(inode, parent, name)?;
                volume.close_file(inode, Want::Writer)
            }
        }
    }

    /// A file with its blocks, or an empty directory, goes.
    pub fn remove(&mut self, kind: Kind, inode: u32) -> Result<(), Refusal> {
        let volume = self.volume();
        if kind == Kind::Dir {
            volume.open_dir(inode, Want::Writer)?;
            return volume.delete_dir(inode);
        }
        let record = Record::of(&volume.carried_file(inode)?);
        volume.open_file(inode, Want::Writer)?;
        volume.delete_file(inode)?;
        match record.size {
            0 => Ok(()),
            _ => volume.delete(record.first_block as usize),
        }
    }
}
