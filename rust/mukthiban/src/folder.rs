//! A volume as a folder of the host: `fat.bin`, `data.bin`, `dir_hash.bin`, `dir_table.bin`, `file_hash.bin`,
//! `file_table.bin`, and `block_len`, a number as text.
//!
//! Reading changes nothing on the disk. A change is written to a journal in the folder first, and then in place: after
//! a crash at any point the volume that is found is the old one or the new one, whole (docs/JOURNAL.md).
//!
//! ```
//! use mukthiban::{Shape, Volume, ROOT};
//! # let place = std::env::temp_dir().join(format!("mukthiban-doc-{}", std::process::id()));
//! # std::fs::create_dir(&place)?;
//! let card = place.join("card");
//! let shape = Shape { blocks: 8, block_len: 512, dir_max: 4, file_max: 4, buckets: 3 };
//! mukthiban::folder::create(&card, Volume::new(shape)?.parts())?;
//!
//! let mut volume = Volume::load(&card)?;
//! volume.make_dir(ROOT, b"saves\0\0\0\0\0\0\0\0\0\0\0", &[0; 4])?;
//! volume.save(&card)?;
//! assert!(Volume::load(&card)?.lookup_dir(ROOT, b"saves\0\0\0\0\0\0\0\0\0\0\0").is_ok());
//! # std::fs::remove_dir_all(&place)?;
//! # Ok::<(), Box<dyn std::error::Error>>(())
//! ```

mod create;
mod error;

pub use create::create;
pub use error::FolderError;

use error::{host, unfinished};

use crate::disk;
use crate::journal::{self, tables_digest, Found, Journal, Piece, DATA, FILES};
use crate::parts::Parts;
use crate::tree;
use crate::whole::Volume;
use std::borrow::Cow;
use std::fs::{File, TryLockError};
use std::io::{self, Read};
use std::os::unix::fs::FileExt;
use std::path::{Path, PathBuf};
use std::time::{Duration, Instant};

const BLOCK_LEN: &str = "block_len";

/// The block length and the lengths of a volume's files, as they stand there.
#[derive(Clone, Copy, Debug, PartialEq, Eq)]
pub struct Sizes {
    /// The number in `block_len`.
    pub block_len: usize,
    /// `fat.bin`, `data.bin`, `dir_hash.bin`, `dir_table.bin`, `file_hash.bin`, `file_table.bin`, in bytes.
    pub files: [u64; 6],
}

impl Sizes {
    /// The blocks that the block table's length speaks of.
    pub fn blocks(&self) -> u64 {
        (self.files[0] / 8).saturating_sub(1)
    }

    /// Whether the blocks' bytes are as many as the blocks hold.
    pub fn data_fits(&self) -> bool {
        u128::from(self.files[DATA]) == u128::from(self.blocks()) * self.block_len as u128
    }
}

/// The most bytes that a file of a volume has, by its place in `FILES`.
const MOST: [u64; 6] = [
    8 * 1_000_001,
    1_000_000 * 65_536,
    4 * 65_536,
    tree::DIR_WIDTH as u64 * 65_537 - 1,
    4 * 65_536,
    tree::FILE_WIDTH as u64 * 65_537 - 1,
];

/// What of the blocks' bytes is wanted.
#[derive(Clone, Copy, Debug, PartialEq, Eq)]
pub enum Data {
    /// All.
    Bytes,
    /// Their number alone: zeros stand for them, which cost no memory until they are touched.
    Length,
}

/// What of the blocks' bytes is written.
#[derive(Clone, Copy, Debug)]
pub enum Written<'a> {
    /// Whatever differs from what is in place.
    Different,
    /// These: a block's number, and bytes from its beginning on.
    These(&'a [(u32, Vec<u8>)]),
}

/// What is to be done with a volume.
#[derive(Clone, Copy, Debug, PartialEq, Eq)]
pub enum Access {
    /// It is looked at, beside others that look.
    Read,
    /// It is changed, by nobody else at the time.
    Change,
}

/// A volume's folder, locked until this is dropped.
#[derive(Debug)]
pub struct Folder {
    path: PathBuf,
    lock: Option<File>,
}

impl Folder {
    /// Locks the folder, waiting so long at most. A change finishes what an interrupted one left.
    pub fn open(path: &Path, access: Access, wait: Duration) -> Result<Folder, FolderError> {
        let about = path.metadata().map_err(|e| match e.kind() {
            io::ErrorKind::NotFound => FolderError::Missing(path.into()),
            _ => host((path.into(), e)),
        })?;
        if !about.is_dir() {
            return Err(FolderError::NotAFolder(path.into()));
        }
        let folder = Folder { path: path.into(), lock: lock(path, access, wait)? };
        if access == Access::Change {
            folder.recover()?;
        }
        Ok(folder)
    }

    /// The lengths of the files, which are not read.
    pub fn sizes(&self) -> Result<Sizes, FolderError> {
        let path = self.path.join(BLOCK_LEN);
        let mut text = String::new();
        let read = File::open(&path).and_then(|f| f.take(64).read_to_string(&mut text));
        let block_len = match read {
            Ok(_) => text.trim().parse().map_err(|_| FolderError::BlockLen(path))?,
            Err(e) if e.kind() == io::ErrorKind::InvalidData => return Err(FolderError::BlockLen(path)),
            Err(e) => return Err(host((path, e))),
        };
        let mut files = [0; 6];
        for (name, length) in FILES.iter().zip(&mut files) {
            let path = self.path.join(name);
            let about = path.metadata().map_err(|e| host((path.clone(), e)))?;
            if !about.is_file() {
                return Err(host((path, io::ErrorKind::IsADirectory.into())));
            }
            *length = about.len();
        }
        Ok(Sizes { block_len, files })
    }

    /// Reads the volume, looking through a journal that holds. Nothing is tested but the lengths that no volume has.
    pub fn load(&self, data: Data) -> Result<Parts, FolderError> {
        let sizes = self.sizes()?;
        let with_data = data == Data::Bytes && sizes.data_fits();
        let mut parts = self.read(&sizes, with_data)?;
        match journal::find(&self.path).map_err(|e| host((self.path.clone(), e)))? {
            Found::Whole(journal) if journal.overlay(&mut parts, with_data) => (),
            Found::Whole(_) => return Err(FolderError::Damaged(self.path.clone())),
            Found::Damaged(path) => return Err(FolderError::Damaged(path)),
            Found::None | Found::Foreign(_) => (),
        }
        Ok(parts)
    }

    /// The blocks' bytes in stretches, each given as its first block and its length, which lie inside the volume;
    /// zeros for all others. Stretches near each other are read together.
    pub fn bytes(&self, stretches: &[(u32, u32)]) -> Result<Vec<u8>, FolderError> {
        let (sizes, path) = (self.sizes()?, self.path.join(FILES[DATA]));
        let mut data = zeros(sizes.files[DATA] as usize).ok_or_else(|| FolderError::NoMemory(path.clone()))?;
        let file = File::open(&path).map_err(|e| host((path.clone(), e)))?;
        for (from, to) in near(stretches, sizes.block_len) {
            let place = data.get_mut(from..to).ok_or_else(|| FolderError::OtherSize(path.clone()))?;
            file.read_exact_at(place, from as u64).map_err(|e| host((path.clone(), e)))?;
        }
        if let Found::Whole(journal) = journal::find(&self.path).map_err(|e| host((self.path.clone(), e)))? {
            journal.overlay_data(&mut data).ok_or_else(|| FolderError::Damaged(self.path.clone()))?;
        }
        Ok(data)
    }

    /// The files as they are in place.
    fn read(&self, sizes: &Sizes, with_data: bool) -> Result<Parts, FolderError> {
        let read = |number: usize| {
            let (path, length) = (self.path.join(FILES[number]), sizes.files[number]);
            if length > MOST[number] {
                return Err(FolderError::TooLong(path));
            }
            let mut bytes = zeros(length as usize).ok_or_else(|| FolderError::NoMemory(path.clone()))?;
            if number != DATA || with_data {
                File::open(&path).and_then(|mut f| f.read_exact(&mut bytes)).map_err(|e| host((path, e)))?;
            }
            Ok(bytes)
        };
        Ok(Parts {
            block_len: sizes.block_len,
            fat: read(0)?,
            data: read(DATA)?,
            dir_hash: read(2)?,
            dir_table: read(3)?,
            file_hash: read(4)?,
            file_table: read(5)?,
        })
    }

    /// Puts a changed volume in the place of the one that is there, all of it together. Only what differs is written.
    pub fn save(&self, parts: &Parts, written: Written) -> Result<(), FolderError> {
        let sizes = self.sizes()?;
        let with_data = matches!(written, Written::Different);
        let before = self.read(&sizes, with_data)?;
        let mut pieces = Vec::new();
        for (number, (old, new)) in files_of(&before).into_iter().zip(files_of(parts)).enumerate() {
            if old.len() != new.len() || before.block_len != parts.block_len {
                return Err(FolderError::OtherSize(self.path.join(FILES[number])));
            }
            if number != DATA || with_data {
                differences(number, old, new, &mut pieces);
            }
        }
        if let Written::These(blocks) = written {
            for (block, bytes) in blocks {
                let at = u64::from(*block) * parts.block_len as u64;
                if at + bytes.len() as u64 > sizes.files[DATA] {
                    return Err(FolderError::OtherSize(self.path.join(FILES[DATA])));
                }
                pieces.push(Piece { file: DATA, at, bytes: Cow::Borrowed(bytes) });
            }
        }
        if pieces.is_empty() {
            return Ok(());
        }
        let journal = Journal { tables: tables_digest(parts), pieces };
        journal.write(&self.path).map_err(host)?;
        self.finish(&journal)
    }

    /// The journal holds: all of it in place, and then it goes.
    fn finish(&self, journal: &Journal) -> Result<(), FolderError> {
        disk::sync_folder(&self.path).map_err(|e| unfinished((self.path.clone(), e)))?;
        journal.apply(&self.path).map_err(unfinished)?;
        journal::drop_whole(&self.path).map_err(unfinished)
    }

    /// Finishes or drops what an interrupted change left.
    fn recover(&self) -> Result<(), FolderError> {
        match journal::find(&self.path).map_err(|e| host((self.path.clone(), e)))? {
            Found::None => (),
            Found::Whole(journal) => {
                let mut parts = self.read(&self.sizes()?, false)?;
                if !journal.overlay(&mut parts, false) {
                    return Err(FolderError::Damaged(self.path.clone()));
                }
                // the change that is not finished is an earlier one
                self.finish(&journal).map_err(|e| match e {
                    FolderError::Unfinished(path, error) => FolderError::Host(path, error),
                    other => other,
                })?;
            }
            Found::Damaged(path) => return Err(FolderError::Damaged(path)),
            Found::Foreign(path) => return Err(FolderError::Foreign(path)),
        }
        match journal::drop_part(&self.path).map_err(host)? {
            None => Ok(()),
            Some(path) => Err(FolderError::Foreign(path)),
        }
    }
}

/// The lock is given back at once, and not when the last copy of the open folder goes: a program that is being started
/// by another thread may hold one for a moment.
impl Drop for Folder {
    fn drop(&mut self) {
        if let Some(lock) = &self.lock {
            let _ = lock.unlock();
        }
    }
}

/// Locks a folder. A file system that knows no locks goes without, and so does a reader who may not open it.
fn lock(path: &Path, access: Access, wait: Duration) -> Result<Option<File>, FolderError> {
    let Ok(folder) = File::open(path) else { return Ok(None) };
    let end = Instant::now().checked_add(wait);
    loop {
        let tried = match access {
            Access::Read => folder.try_lock_shared(),
            Access::Change => folder.try_lock(),
        };
        match tried {
            Ok(()) => return Ok(Some(folder)),
            Err(TryLockError::Error(_)) => return Ok(None),
            Err(TryLockError::WouldBlock) if end.is_some_and(|end| Instant::now() >= end) => {
                return Err(FolderError::Locked(path.into()))
            }
            Err(TryLockError::WouldBlock) => std::thread::sleep(Duration::from_millis(10)),
        }
    }
}

/// So many zeros, if there is memory for them. They cost none until they are touched.
fn zeros(length: usize) -> Option<Vec<u8>> {
    Vec::<u8>::new().try_reserve_exact(length).ok()?;
    Some(vec![0; length])
}

/// The places of stretches of blocks in the data, in order, those near each other as one.
fn near(stretches: &[(u32, u32)], block_len: usize) -> Vec<(usize, usize)> {
    const GAP: usize = 1 << 16;
    let mut places: Vec<(usize, usize)> = stretches
        .iter()
        .map(|&(first, blocks)| (first as usize * block_len, (first as usize + blocks as usize) * block_len))
        .collect();
    places.sort_unstable();
    let mut out: Vec<(usize, usize)> = Vec::new();
    for (from, to) in places {
        match out.last_mut() {
            Some(last) if from <= last.1 + GAP => last.1 = last.1.max(to),
            _ => out.push((from, to)),
        }
    }
    out
}

fn files_of(parts: &Parts) -> [&[u8]; 6] {
    [&parts.fat, &parts.data, &parts.dir_hash, &parts.dir_table, &parts.file_hash, &parts.file_table]
}

/// The stretches in which two files of one length differ. Stretches that are near each other are one.
fn differences<'a>(file: usize, old: &[u8], new: &'a [u8], pieces: &mut Vec<Piece<'a>>) {
    const STEP: usize = 64;
    let mut from = None;
    for (at, (a, b)) in old.chunks(STEP).zip(new.chunks(STEP)).enumerate() {
        match (a == b, from) {
            (false, None) => from = Some(at * STEP),
            (true, Some(start)) => {
                pieces.push(Piece { file, at: start as u64, bytes: Cow::Borrowed(&new[start..at * STEP]) });
                from = None;
            }
            _ => (),
        }
    }
    if let Some(start) = from {
        pieces.push(Piece { file, at: start as u64, bytes: Cow::Borrowed(&new[start..]) });
    }
}

impl Volume {
    /// Reads a volume's folder and tests the volume.
    pub fn load(path: &Path) -> Result<Volume, FolderError> {
        let parts = Folder::open(path, Access::Read, Duration::ZERO)?.load(Data::Bytes)?;
        Volume::open(parts).map_err(FolderError::NotSound)
    }

    /// Puts the volume in the place of the one in the folder, which has its sizes. To keep others away between the
    /// reading and the saving, hold a [`Folder`].
    pub fn save(&self, path: &Path) -> Result<(), FolderError> {
        Folder::open(path, Access::Change, Duration::ZERO)?.save(self.parts(), Written::Different)
    }
}
