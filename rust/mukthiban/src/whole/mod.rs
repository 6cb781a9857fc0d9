mod audit;
mod blocks;
mod counts;
mod file;
mod kept;
mod kiosk;
mod map;
mod plan;
mod records;
mod tree;
mod walk;

pub use file::{File, FileMut};
pub use kept::{BlockTable, Change, EntryTables, Part};
pub use walk::{Entry, Walk};

pub(crate) use map::Maps;

use crate::fat::{self, MAX_BLOCKS, MAX_BLOCK_LEN};
use crate::parts::{Parts, Shape};
use crate::refusal::Refusal;
use crate::tables::{TablesMut, DIR_WIDTH, FILE_WIDTH, MAX_BUCKETS, MAX_ENTRIES};
use counts::count_files;
use records::Records;
use std::alloc::{alloc_zeroed, Layout};
use std::fmt;

/// Why a volume was not opened, with the parts as they were handed over.
#[derive(Debug)]
#[non_exhaustive]
pub struct NotSound {
    /// The first test's answer, or else the second's.
    pub refusal: Refusal,
    /// What was handed over, unchanged.
    pub parts: Box<Parts>,
}

impl fmt::Display for NotSound {
    fn fmt(&self, f: &mut fmt::Formatter<'_>) -> fmt::Result {
        self.refusal.fmt(f)
    }
}

impl std::error::Error for NotSound {
    fn source(&self) -> Option<&(dyn std::error::Error + 'static)> {
        Some(&self.refusal)
    }
}

impl From<NotSound> for Refusal {
    fn from(no: NotSound) -> Refusal {
        no.refusal
    }
}

/// A whole volume in memory, tested once.
///
/// [`Volume::open`] hands the tables to both proved tests. After that each call is the inner call, which does not test
/// again: a call costs the nodes that it touches, not a test of the whole table. Whether the given block begins a file is one
/// bit of a map.
///
/// # Why that is right
///
/// The inner calls require sound tables, and are proved for those alone. Three things see to it that they get them:
///
/// - The tests accept exactly the sound tables (theorem of the test).
/// - Every inner call keeps tables sound, whatever it answers (theorem of each step).
/// - The bytes of a `Volume` are private, and nothing but these calls changes them. [`Volume::parts`] lends them to be
///   read; [`Volume::into_parts`] gives them away and ends the volume.
///
/// The same holds of the two maps that it keeps, of the free blocks and of the files' first blocks: they are built when the
/// volume is opened, and create, resize and delete leave the maps that a build would make (theorem of each step). Whatever
/// else changes the table, as a plan that is applied, has them built anew.
///
/// The counts that a volume keeps beside its bytes (free blocks, the blocks of each file) decide nothing: they are
/// counted when it is opened, held against what the test answered, and carried on with each call.
///
/// ```
/// use mukthiban::{Kind, Refusal, Shape, Volume, ROOT};
/// let shape = Shape { blocks: 8, block_len: 512, dir_max: 4, file_max: 4, buckets: 3 };
/// let mut volume = Volume::new(shape)?;
///
/// let first = volume.create(3)?;
/// volume.write(first, 0, b"a saved game")?;
/// let file = volume.make_file(ROOT, b"slot1\0\0\0\0\0\0\0\0\0\0\0", &[0; 20])?;
/// assert_eq!(volume.lookup_file(ROOT, b"slot1\0\0\0\0\0\0\0\0\0\0\0")?.inode, file);
/// assert_eq!(volume.name(Kind::File, file)?, b"slot1\0\0\0\0\0\0\0\0\0\0\0");
///
/// assert_eq!(volume.free(), 5);
/// assert_eq!(volume.create(6), Err(Refusal::NoSpace));
/// volume.resize(first, 8)?;
/// volume.delete(first)?;
/// assert_eq!(volume.free(), 8);
///
/// // What was written is found again.
/// let again = Volume::open(volume.into_parts()).map_err(|no| no.refusal)?;
/// assert_eq!(again.files(), 0);
/// # Ok::<(), Refusal>(())
/// ```
#[derive(Clone)]
pub struct Volume {
    parts: Parts,
    dir_opens: Records,
    file_opens: Records,
    /// Blocks in the free chain.
    free: usize,
    /// For the first block of each file how many blocks the file has; 0 for every other block.
    counts: Vec<u32>,
    maps: Maps,
    /// Whether its block length is not in use.
    read_only: bool,
}

/// What it holds in numbers: the bytes are many.
impl fmt::Debug for Volume {
    fn fmt(&self, f: &mut fmt::Formatter<'_>) -> fmt::Result {
        f.debug_struct("Volume")
            .field("parts", &self.parts)
            .field("free", &self.free)
            .field("files", &self.files())
            .finish_non_exhaustive()
    }
}

impl Volume {
    /// Tests the parts, the block table first, and takes them over. Nothing is open.
    ///
    /// ```
    /// use mukthiban::{Parts, Refusal, Volume};
    /// let no = Volume::open(Parts::default()).unwrap_err();
    /// assert_eq!(no.refusal, Refusal::SizeMismatch);
    /// ```
    pub fn open(mut parts: Parts) -> Result<Volume, NotSound> {
        let (dirs, files) = parts.rooms();
        // Sizes beyond their bounds are refused before the work list is looked at.
        let rooms = dirs.min(MAX_ENTRIES) + files.min(MAX_ENTRIES);
        let mut work = vec![0; parts.blocks().min(MAX_BLOCKS).max(rooms)];
        match test(&parts, &mut work) {
            Ok(tested) => {
                let counts = count_files(&parts.fat, tested);
                let (dir_opens, file_opens) = (Records::default(), Records::default());
                // A write of no bytes, whose answer is the library's word on the block length.
                let written = fat::write_blocks(&mut parts.data, parts.block_len, &[], 0, &[]);
                let read_only = written == Err(Refusal::ReadOnlyVolume);
                // SAFETY: the test accepted the table.
                let maps = unsafe { Maps::of(&parts) };
                Ok(Volume { parts, dir_opens, file_opens, free: tested.free, counts, maps, read_only })
            }
            Err(refusal) => Err(NotSound { refusal, parts: Box::new(parts) }),
        }
    }

    /// A new, empty volume. `InvalidValue` where a size is outside its bounds, or there is no memory for it;
    /// `ReadOnlyVolume` where the block length is not 512 or 4,096, since nothing could be put into it.
    ///
    /// ```
    /// use mukthiban::{Refusal, Shape, Volume};
    /// let shape = Shape { blocks: 0, block_len: 512, dir_max: 4, file_max: 4, buckets: 3 };
    /// assert_eq!(Volume::new(shape).unwrap_err(), Refusal::InvalidValue);
    /// ```
    pub fn new(shape: Shape) -> Result<Volume, Refusal> {
        let mut parts = zeroed(shape)?;
        fat::format(&mut parts.fat)?;
        let mut tables = TablesMut {
            dir_hash: &mut parts.dir_hash,
            dir_table: &mut parts.dir_table,
            file_hash: &mut parts.file_hash,
            file_table: &mut parts.file_table,
        };
        crate::tree::format(&mut tables, shape.dir_max, shape.file_max)?;
        let volume = Volume::open(parts)?;
        if volume.read_only {
            return Err(Refusal::ReadOnlyVolume);
        }
        Ok(volume)
    }

    /// The volume's bytes, to be read.
    pub fn parts(&self) -> &Parts {
        &self.parts
    }

    /// The volume's bytes, given away.
    pub fn into_parts(self) -> Parts {
        self.parts
    }

    /// Whether its block length is not in use (512 and 4,096 are): such a volume can be read and copied out, and every call
    /// that would change its blocks is refused with `ReadOnlyVolume`. Calls on the tree know nothing of it.
    ///
    /// ```
    /// use mukthiban::{Refusal, Shape, Volume};
    /// let mut parts = Volume::new(Shape { blocks: 8, block_len: 512, dir_max: 4, file_max: 4, buckets: 3 })?.into_parts();
    /// parts.block_len = 64;
    /// parts.data.truncate(8 * 64);
    /// let mut old = Volume::open(parts)?;
    /// assert!(old.is_read_only());
    /// assert_eq!(old.create(1), Err(Refusal::ReadOnlyVolume));
    /// # Ok::<(), Refusal>(())
    /// ```
    pub fn is_read_only(&self) -> bool {
        self.read_only
    }

    /// Blocks in all.
    pub fn blocks(&self) -> usize {
        self.counts.len()
    }

    /// Free blocks.
    pub fn free(&self) -> usize {
        self.free
    }

    /// How many files the block table holds: chains other than the free one.
    pub fn files(&self) -> usize {
        self.first_blocks().count()
    }

    /// The first block of each file of the block table, rising.
    pub fn first_blocks(&self) -> impl Iterator<Item = usize> + '_ {
        (0..self.counts.len()).filter(|&b| self.counts[b] != 0)
    }

    /// How many blocks the file has that begins there. `NotAFile` if none does.
    pub fn block_count(&self, first_block: usize) -> Result<usize, Refusal> {
        match self.counts.get(first_block) {
            Some(&count) if count != 0 => Ok(count as usize),
            _ => Err(Refusal::NotAFile),
        }
    }
}

/// Parts of that shape, all zeros. A size that is out of bounds is made no memory for; format refuses what is left.
fn zeroed(shape: Shape) -> Result<Parts, Refusal> {
    let within = |count: usize, most: usize| match count {
        1.. if count <= most => Ok(count),
        _ => Err(Refusal::InvalidValue),
    };
    let zeros = |len: usize| zeros(len).ok_or(Refusal::InvalidValue);
    let (blocks, buckets) = (within(shape.blocks, MAX_BLOCKS)?, within(shape.buckets, MAX_BUCKETS)?);
    let block_len = within(shape.block_len, MAX_BLOCK_LEN)?;
    let (dirs, files) = (within(shape.dir_max, MAX_ENTRIES)?, within(shape.file_max, MAX_ENTRIES)?);
    Ok(Parts {
        block_len,
        fat: zeros((blocks + 1) * 8)?,
        data: zeros(blocks * block_len)?,
        dir_hash: zeros(buckets * 4)?,
        dir_table: zeros(dirs * DIR_WIDTH)?,
        file_hash: zeros(buckets * 4)?,
        file_table: zeros(files * FILE_WIDTH)?,
    })
}

/// So many zeros, which are some; None where there is no memory for them.
fn zeros(len: usize) -> Option<Vec<u8>> {
    let layout = Layout::array::<u8>(len).ok().filter(|layout| layout.size() > 0)?;
    // SAFETY: the layout has a size above 0. The memory is the global allocator's, of that layout and all of it zeros,
    // so that it is a vector of `len` bytes.
    unsafe {
        let memory = alloc_zeroed(layout);
        (!memory.is_null()).then(|| Vec::from_raw_parts(memory, len, len))
    }
}

/// Both tests, and the sizes of the data. The open list of block 0 is asked for only to have data and block length
/// judged by the library, in the order of RULES 2.2; whether block 0 begins a file does not matter here.
fn test(parts: &Parts, work: &mut [u32]) -> Result<fat::Tested, Refusal> {
    match fat::open_list(&parts.fat, &parts.data, parts.block_len, work, 0, &mut []) {
        Ok(_) | Err(Refusal::NotAFile | Refusal::ListTooShort) => (),
        Err(refusal) => return Err(refusal),
    }
    let tested = fat::test(&parts.fat, work)?;
    crate::tree::test(parts.tables(), work)?;
    Ok(tested)
}
