//! The original's block table over two files in memory, with the handles that a session keeps.

use crate::fat::{Fat, FatFile};
use crate::memory::Memory;
use crate::number;
use crate::random_access_file::RandomAccessFile;
use crate::wire::Wire;
use crate::Failure;
use std::collections::HashMap;
use std::rc::Rc;

pub struct Volume {
    wire: Rc<Wire>,
    table: Rc<Memory>,
    data: Rc<Memory>,
    fat: Rc<Fat>,
    handles: HashMap<usize, FatFile>,
}

impl Volume {
    /// Formats these bytes in place.
    pub fn format(table: &mut [u8]) -> Result<(), u32> {
        let memory = Memory::new(table);
        let answer = Fat::format(&memory).map_err(number);
        table.copy_from_slice(&memory.copied());
        answer
    }

    pub fn open(table: &[u8], data: &[u8], block_len: usize) -> Result<Volume, u32> {
        let wire = Rc::default();
        let (table, data) = (Memory::on(&wire, table, true), Memory::on(&wire, data, false));
        Volume::over(wire, table, data, block_len)
    }

    /// A volume of which nothing was written yet but its formatted table.
    pub fn unwritten(blocks: usize, block_len: usize) -> Result<Volume, u32> {
        let wire = Rc::default();
        let (table, data) = (Memory::unwritten(&wire, (blocks + 1) * 8), Memory::unwritten(&wire, blocks * block_len));
        Fat::format(&table).map_err(number)?;
        Volume::over(wire, table, data, block_len)
    }

    fn over(wire: Rc<Wire>, table: Memory, data: Memory, block_len: usize) -> Result<Volume, u32> {
        let (table, data) = (Rc::new(table), Rc::new(data));
        let fat = Fat::new(table.clone(), data.clone(), block_len).map_err(number)?;
        Ok(Volume { wire, table, data, fat, handles: HashMap::new() })
    }

    /// From now on calls of both files fail as it is said, or no more.
    pub fn fail(&self, failure: Option<Failure>) {
        self.wire.fail(failure);
    }
    /// Notes from now on what is written to the table; `watched` gives places and lengths.
    pub fn watch(&self) {
        self.wire.watch();
    }
    pub fn watched(&self) -> Vec<(usize, usize)> {
        self.wire.watched()
    }

    /// The same bytes seen anew: every handle is dropped.
    pub fn reopen(&mut self, block_len: usize) -> Result<(), u32> {
        self.handles.clear();
        self.fat = Fat::new(self.table.clone(), self.data.clone(), block_len).map_err(number)?;
        Ok(())
    }

    pub fn free(&self) -> usize {
        self.fat.free_blocks()
    }
    pub fn table(&self) -> Vec<u8> {
        self.table.copied()
    }
    pub fn data(&self) -> Vec<u8> {
        self.data.copied()
    }
    pub fn holds(&self, table: &[u8], data: &[u8]) -> bool {
        self.table.holds(table) && self.data.holds(data)
    }
    pub fn set_table(&self, table: &[u8]) {
        self.table.set(table);
    }
    /// Puts other bytes of the same lengths into the two files, behind the original's back.
    pub fn set(&self, table: &[u8], data: &[u8]) {
        self.table.set(table);
        self.data.set(data);
    }

    /// The handle of the file that starts at that block, opened if there is none yet.
    fn handle(&mut self, first: usize) -> Result<&mut FatFile, u32> {
        if !self.handles.contains_key(&first) {
            let file = FatFile::open(self.fat.clone(), first).map_err(number)?;
            self.handles.insert(first, file);
        }
        Ok(self.handles.get_mut(&first).unwrap())
    }

    pub fn list(&mut self, first: usize) -> Result<Vec<u32>, u32> {
        Ok(self.handle(first)?.listed())
    }
    /// Opens anew and drops that handle again.
    pub fn fresh_list(&self, first: usize) -> Result<Vec<u32>, u32> {
        let file = FatFile::open(self.fat.clone(), first).map_err(number)?;
        Ok(file.listed())
    }
    pub fn create(&mut self, count: usize) -> Result<usize, u32> {
        let (file, first) = FatFile::create(self.fat.clone(), count).map_err(number)?;
        self.handles.insert(first, file);
        Ok(first)
    }
    pub fn resize(&mut self, first: usize, count: usize) -> Result<(), u32> {
        self.handle(first)?.resize(count).map_err(number)
    }
    /// By a second handle, which is then dropped: the kept one does not hear of it.
    pub fn resize_apart(&self, first: usize, count: usize) -> Result<(), u32> {
        FatFile::open(self.fat.clone(), first).and_then(|mut file| file.resize(count)).map_err(number)
    }
    pub fn delete(&mut self, first: usize) -> Result<(), u32> {
        self.handle(first)?;
        self.handles.remove(&first).unwrap().delete().map_err(number)
    }
    pub fn read(&mut self, first: usize, pos: usize, buf: &mut [u8]) -> Result<(), u32> {
        self.handle(first)?.read(pos, buf).map_err(number)
    }
    pub fn write(&mut self, first: usize, pos: usize, buf: &[u8]) -> Result<(), u32> {
        self.handle(first)?.write(pos, buf).map_err(number)
    }
    /// The file that starts at that block, with its handle at hand.
    pub fn opened(&mut self, first: usize) -> Result<Opened<'_>, u32> {
        Ok(Opened(self.handle(first)?))
    }
}

/// A file that is open.
pub struct Opened<'v>(&'v mut FatFile);

impl Opened<'_> {
    pub fn read(&mut self, pos: usize, buf: &mut [u8]) -> Result<(), u32> {
        self.0.read(pos, buf).map_err(number)
    }
    pub fn write(&mut self, pos: usize, buf: &[u8]) -> Result<(), u32> {
        self.0.write(pos, buf).map_err(number)
    }
}
