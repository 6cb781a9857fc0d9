//! Files of a volume as the standard library's: read, written and sought, with the block list opened once.

use super::Volume;
use crate::fat;
use crate::record::Record;
use crate::refusal::Refusal;
use std::io::{self, Read, Seek, SeekFrom, Write};

/// Where a handle stands in its file.
#[derive(Clone, Debug)]
struct Place {
    /// The file's blocks, in chain order.
    blocks: Vec<u32>,
    size: u64,
    pos: u64,
}

impl Place {
    fn open(volume: &Volume, record: Record) -> Result<Place, Refusal> {
        let blocks = match record.size {
            0 => vec![],
            _ => volume.open_list(record.first_block as usize)?,
        };
        if record.blocks(volume.parts.block_len) > blocks.len() as u64 {
            return Err(Refusal::OutOfBound);
        }
        Ok(Place { blocks, size: record.size, pos: 0 })
    }

    /// Reads up to the file's end.
    fn read(&mut self, volume: &Volume, buf: &mut [u8]) -> Result<usize, Refusal> {
        let left = self.size.saturating_sub(self.pos);
        let count = buf.len().min(usize::try_from(left).unwrap_or(usize::MAX));
        if count == 0 {
            return Ok(0);
        }
        let pos = usize::try_from(self.pos).map_err(|_| Refusal::OutOfBound)?;
        fat::read_blocks(&volume.parts.data, volume.parts.block_len, &self.blocks, pos, &mut buf[..count])?;
        self.pos += count as u64;
        Ok(count)
    }

    fn seek(&mut self, to: SeekFrom) -> io::Result<u64> {
        let place = match to {
            SeekFrom::Start(pos) => Some(pos),
            SeekFrom::End(by) => self.size.checked_add_signed(by),
            SeekFrom::Current(by) => self.pos.checked_add_signed(by),
        };
        let before = || io::Error::new(io::ErrorKind::InvalidInput, "a position before the file's beginning");
        self.pos = place.ok_or_else(before)?;
        Ok(self.pos)
    }
}

impl Volume {
    /// A file's record: where its blocks begin and how long it is.
    pub fn record(&self, inode: u32) -> Result<Record, Refusal> {
        Ok(Record::of(&self.carried_file(inode)?))
    }

    /// A file to be read. `NotAFile` where its record names no chain, `OutOfBound` where it says more bytes than its
    /// blocks hold. Open records are not touched.
    pub fn file(&self, inode: u32) -> Result<File<'_>, Refusal> {
        Ok(File { volume: self, place: Place::open(self, self.record(inode)?)? })
    }

    /// A file to be read and changed, refused as [`Volume::file`] does, and then with `ReadOnlyVolume` where the block
    /// length is not in use. Whether another file's record claims the same chain is not looked at here.
    pub fn file_mut(&mut self, inode: u32) -> Result<FileMut<'_>, Refusal> {
        let record = self.record(inode)?;
        let place = Place::open(self, record)?;
        if self.is_read_only() {
            return Err(Refusal::ReadOnlyVolume);
        }
        Ok(FileMut { volume: self, inode, record, place })
    }
}

/// A file of a volume, to be read. Its block list was opened once.
#[derive(Clone, Debug)]
pub struct File<'v> {
    volume: &'v Volume,
    place: Place,
}

impl File<'_> {
    /// The file's length in bytes.
    pub fn size(&self) -> u64 {
        self.place.size
    }
}

impl Read for File<'_> {
    fn read(&mut self, buf: &mut [u8]) -> io::Result<usize> {
        Ok(self.place.read(self.volume, buf)?)
    }
}

impl Seek for File<'_> {
    fn seek(&mut self, to: SeekFrom) -> io::Result<u64> {
        self.place.seek(to)
    }
}

/// A file of a volume, to be read and changed.
///
/// A write behind the file's end makes it longer; what lies between is zeros. Its record and its chain follow at once,
/// so that there is nothing to flush. Growing opens the block list anew: who knows the length says it first, by
/// [`FileMut::set_len`].
///
/// ```
/// use mukthiban::{name, Shape, Volume, ROOT};
/// use std::io::{Read, Seek, SeekFrom, Write};
/// let mut volume = Volume::new(Shape { blocks: 8, block_len: 512, dir_max: 4, file_max: 4, buckets: 3 })?;
/// let inode = volume.make_file(ROOT, &name::from_text("slot1.sav")?, &[0; 20])?;
/// let mut file = volume.file_mut(inode)?;
/// file.write_all(b"a saved game")?;
/// file.seek(SeekFrom::Start(2))?;
/// file.write_all(b"SAVED")?;
///
/// let mut text = String::new();
/// volume.file(inode)?.read_to_string(&mut text)?;
/// assert_eq!(text, "a SAVED game");
/// assert_eq!(volume.record(inode)?.size, 12);
/// # Ok::<(), Box<dyn std::error::Error>>(())
/// ```
#[derive(Debug)]
pub struct FileMut<'v> {
    volume: &'v mut Volume,
    inode: u32,
    record: Record,
    place: Place,
}

impl FileMut<'_> {
    /// The file's length in bytes.
    pub fn size(&self) -> u64 {
        self.place.size
    }

    /// Makes the file shorter or longer. What is new is zeros, and so is what the last block has behind the end. A file
    /// of length 0 owns no blocks.
    pub fn set_len(&mut self, size: u64) -> Result<(), Refusal> {
        let before = self.place.size;
        let now = self.resized(size)?;
        if now != self.record {
            let mut carried = self.volume.carried_file(self.inode)?;
            now.put(&mut carried);
            self.volume.set_carried_file(self.inode, &carried)?;
        }
        let pos = self.place.pos;
        self.record = now;
        self.place = Place { pos, ..Place::open(self.volume, now)? };
        // What is new, and what the last block has behind the end, so that no older file's bytes are left there.
        let (from, end) = (before.min(size) as usize, self.place.blocks.len() * self.volume.parts.block_len);
        self.clear(from, end)
    }

    /// The record with that size, its chain as long as it needs.
    fn resized(&mut self, size: u64) -> Result<Record, Refusal> {
        let Record { first_block, size: before } = self.record;
        let wanted = Record { first_block, size };
        let blocks = usize::try_from(wanted.blocks(self.volume.parts.block_len)).map_err(|_| Refusal::NoSpace)?;
        match (before, size) {
            (0, 0) => return Ok(self.record),
            (0, _) => return Ok(Record { first_block: self.volume.create(blocks)? as u32, size }),
            (_, 0) => {
                self.volume.delete(first_block as usize)?;
                return Ok(Record::EMPTY);
            }
            _ if blocks != self.place.blocks.len() => self.volume.resize(first_block as usize, blocks)?,
            _ => (),
        }
        Ok(wanted)
    }

    /// Puts bytes where the blocks hold them.
    fn put(&mut self, pos: usize, bytes: &[u8]) -> Result<(), Refusal> {
        let parts = &mut self.volume.parts;
        fat::write_blocks(&mut parts.data, parts.block_len, &self.place.blocks, pos, bytes)
    }

    /// Puts zeros from one byte up to another, a block's length at a time.
    fn clear(&mut self, from: usize, end: usize) -> Result<(), Refusal> {
        let zeros = vec![0; self.volume.parts.block_len.min(end - from)];
        let mut at = from;
        while at < end {
            let count = zeros.len().min(end - at);
            self.put(at, &zeros[..count])?;
            at += count;
        }
        Ok(())
    }
}

impl Read for FileMut<'_> {
    fn read(&mut self, buf: &mut [u8]) -> io::Result<usize> {
        Ok(self.place.read(self.volume, buf)?)
    }
}

impl Seek for FileMut<'_> {
    fn seek(&mut self, to: SeekFrom) -> io::Result<u64> {
        self.place.seek(to)
    }
}

impl Write for FileMut<'_> {
    /// All of `buf`, or nothing where the volume has too few free blocks for it.
    fn write(&mut self, buf: &[u8]) -> io::Result<usize> {
        if buf.is_empty() {
            return Ok(0);
        }
        let pos = self.place.pos;
        let end = pos.checked_add(buf.len() as u64).ok_or(Refusal::NoSpace)?;
        if end > self.place.size {
            self.set_len(end)?;
        }
        self.put(usize::try_from(pos).map_err(|_| Refusal::OutOfBound)?, buf)?;
        self.place.pos = end;
        Ok(buf.len())
    }

    fn flush(&mut self) -> io::Result<()> {
        Ok(())
    }
}
