//! The journal of a volume folder: what a change writes, kept until all of it is in place. docs/JOURNAL.md says why
//! this is enough.

use crate::digest::Digest;
use crate::disk;
use crate::parts::Parts;
use std::borrow::Cow;
use std::fs::{self, File};
use std::io::{self, BufReader, Read};
use std::path::{Path, PathBuf};

const MAGIC: [u8; 8] = *b"MUKTJRNL";
const VERSION: u32 = 1;
const HEAD: usize = 32;
const PIECE_HEAD: usize = 24;

/// A journal that is whole and holds.
const WHOLE: &str = "mukthiban.journal";
/// A journal that is being written, and holds nothing yet.
const PART: &str = "mukthiban.journal.part";

/// The files that a change writes to, by their number in a journal.
pub(crate) const FILES: [&str; 6] =
    ["fat.bin", "data.bin", "dir_hash.bin", "dir_table.bin", "file_hash.bin", "file_table.bin"];
/// The place of the blocks' bytes in `FILES`.
pub(crate) const DATA: usize = 1;

/// New bytes for a stretch of one file.
pub(crate) struct Piece<'a> {
    pub file: usize,
    pub at: u64,
    pub bytes: Cow<'a, [u8]>,
}

/// What a change writes, and the digest of the tables as they are afterwards.
pub(crate) struct Journal<'a> {
    pub tables: u64,
    pub pieces: Vec<Piece<'a>>,
}

/// What stands under a journal's name.
pub(crate) enum Found {
    None,
    /// A whole journal.
    Whole(Journal<'static>),
    /// Something that this program never wrote.
    Foreign(PathBuf),
    /// A journal with other bytes than were written.
    Damaged(PathBuf),
}

/// The digest of the five tables, each behind its length.
pub(crate) fn tables_digest(parts: &Parts) -> u64 {
    let mut digest = Digest::new();
    for table in [&parts.fat, &parts.dir_hash, &parts.dir_table, &parts.file_hash, &parts.file_table] {
        digest.add(&(table.len() as u64).to_le_bytes());
        digest.add(table);
    }
    digest.end()
}

impl Journal<'_> {
    /// Writes the journal and makes it hold: from the rename on, the change is made.
    pub fn write(&self, folder: &Path) -> Result<(), (PathBuf, io::Error)> {
        let part = folder.join(PART);
        let at = |path: &Path, e| (path.to_path_buf(), e);
        let file = disk::create_new(&part).map_err(|e| at(&part, e))?;
        let written = self.write_to(&file).and_then(|()| disk::sync(&file));
        let named = written.and_then(|()| disk::rename(&part, &folder.join(WHOLE)));
        named.map_err(|e| {
            let _ = disk::remove(&part);
            at(&part, e)
        })
    }

    fn write_to(&self, file: &File) -> io::Result<()> {
        let length: usize = self.pieces.iter().map(|p| PIECE_HEAD + p.bytes.len()).sum::<usize>() + HEAD + 8;
        let mut digest = Digest::new();
        let mut put = |bytes: &[u8]| {
            digest.add(bytes);
            disk::write(file, bytes)
        };
        let mut heads = Vec::from(MAGIC);
        heads.extend(VERSION.to_le_bytes());
        heads.extend((self.pieces.len() as u32).to_le_bytes());
        heads.extend((length as u64).to_le_bytes());
        heads.extend(self.tables.to_le_bytes());
        for piece in &self.pieces {
            heads.extend([piece.file as u64, piece.at, piece.bytes.len() as u64].iter().flat_map(|n| n.to_le_bytes()));
        }
        put(&heads)?;
        for piece in &self.pieces {
            put(&piece.bytes)?;
        }
        disk::write(file, &digest.end().to_le_bytes())
    }

    /// Writes every piece in its place, on the disk. Done twice it does the same.
    pub fn apply(&self, folder: &Path) -> Result<(), (PathBuf, io::Error)> {
        for (number, name) in FILES.iter().enumerate() {
            let path = folder.join(name);
            let pieces: Vec<&Piece> = self.pieces.iter().filter(|p| p.file == number).collect();
            if pieces.is_empty() {
                continue;
            }
            let write = || {
                let file = fs::OpenOptions::new().write(true).open(&path)?;
                pieces.iter().try_for_each(|p| disk::write_at(&file, &p.bytes, p.at))?;
                disk::sync(&file)
            };
            write().map_err(|e| (path.clone(), e))?;
        }
        Ok(())
    }

    /// The volume as it is when every piece is in its place, and whether the journal is this volume's: each piece lies
    /// inside its file, and the tables come out as the digest says. Data that is not held is left out.
    pub fn overlay(&self, parts: &mut Parts, with_data: bool) -> bool {
        for piece in &self.pieces {
            let file = match piece.file {
                0 => &mut parts.fat,
                1 => &mut parts.data,
                2 => &mut parts.dir_hash,
                3 => &mut parts.dir_table,
                4 => &mut parts.file_hash,
                _ => &mut parts.file_table,
            };
            let at = usize::try_from(piece.at).unwrap_or(usize::MAX);
            let Some(place) = file.get_mut(at..).and_then(|f| f.get_mut(..piece.bytes.len())) else { return false };
            if piece.file != DATA || with_data {
                place.copy_from_slice(&piece.bytes);
            }
        }
        tables_digest(parts) == self.tables
    }
}

impl Journal<'_> {
    /// Lays the new bytes of the blocks over those that were read. None where they do not lie inside.
    pub fn overlay_data(&self, data: &mut [u8]) -> Option<()> {
        for piece in self.pieces.iter().filter(|p| p.file == DATA) {
            let place = data.get_mut(usize::try_from(piece.at).ok()?..)?.get_mut(..piece.bytes.len())?;
            place.copy_from_slice(&piece.bytes);
        }
        Some(())
    }
}

/// Whether a path names a file that is no link.
fn is_plain(path: &Path) -> io::Result<Option<bool>> {
    match path.symlink_metadata() {
        Ok(about) => Ok(Some(about.is_file())),
        Err(e) if e.kind() == io::ErrorKind::NotFound => Ok(None),
        Err(e) => Err(e),
    }
}

/// The journal that holds, if there is one.
pub(crate) fn find(folder: &Path) -> io::Result<Found> {
    let path = folder.join(WHOLE);
    match is_plain(&path)? {
        None => return Ok(Found::None),
        Some(false) => return Ok(Found::Foreign(path)),
        Some(true) => (),
    }
    let file = File::open(&path)?;
    let length = file.metadata()?.len();
    let mut head = Vec::new();
    let mut rest = BufReader::new(file);
    rest.by_ref().take(HEAD as u64).read_to_end(&mut head)?;
    if !head.starts_with(&MAGIC) {
        return Ok(Found::Foreign(path));
    }
    // the length is judged before the rest is read
    if head.len() < HEAD || number(&head[16..]) != length {
        return Ok(Found::Damaged(path));
    }
    rest.read_to_end(&mut head)?;
    Ok(parse(&head).map_or(Found::Damaged(path), Found::Whole))
}

fn number(bytes: &[u8]) -> u64 {
    u64::from_le_bytes(bytes[..8].try_into().expect("8 bytes"))
}

/// A journal from its bytes, if they are those that were written.
fn parse(bytes: &[u8]) -> Option<Journal<'static>> {
    let (body, end) = bytes.split_at_checked(bytes.len().checked_sub(8)?)?;
    let mut digest = Digest::new();
    digest.add(body);
    if digest.end() != number(end) || body[8..12] != VERSION.to_le_bytes() {
        return None;
    }
    let count = u32::from_le_bytes(body[12..16].try_into().expect("4 bytes")) as usize;
    let (heads, mut rest) = body[HEAD..].split_at_checked(count.checked_mul(PIECE_HEAD)?)?;
    let mut pieces = Vec::new();
    for head in heads.chunks_exact(PIECE_HEAD) {
        let file = usize::try_from(number(head)).ok().filter(|f| *f < FILES.len())?;
        let (bytes, behind) = rest.split_at_checked(usize::try_from(number(&head[16..])).ok()?)?;
        pieces.push(Piece { file, at: number(&head[8..]), bytes: Cow::Owned(bytes.to_vec()) });
        rest = behind;
    }
    rest.is_empty().then_some(Journal { tables: number(&body[24..]), pieces })
}

/// Takes away a journal that is in place. From here on nothing is left to do.
pub(crate) fn drop_whole(folder: &Path) -> Result<(), (PathBuf, io::Error)> {
    let path = folder.join(WHOLE);
    disk::remove(&path).and_then(|()| disk::sync_folder(folder)).map_err(|e| (path, e))
}

/// Takes away a journal that never came to hold. Answers the path of one that is not this program's, and leaves it.
pub(crate) fn drop_part(folder: &Path) -> Result<Option<PathBuf>, (PathBuf, io::Error)> {
    let path = folder.join(PART);
    let at = |e| (path.clone(), e);
    match is_plain(&path).map_err(at)? {
        None => return Ok(None),
        Some(true) if is_ours(&path).map_err(at)? => (),
        Some(_) => return Ok(Some(path)),
    }
    disk::remove(&path).and_then(|()| disk::sync_folder(folder)).map_err(at)?;
    Ok(None)
}

/// Whether a file is the beginning of a journal, or of one whose bytes did not come to the disk.
fn is_ours(path: &Path) -> io::Result<bool> {
    let mut front = Vec::new();
    File::open(path)?.take(MAGIC.len() as u64).read_to_end(&mut front)?;
    Ok(MAGIC.starts_with(&front) || front.iter().all(|&b| b == 0))
}
