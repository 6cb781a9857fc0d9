use crate::whole::NotSound;
use std::fmt;
use std::io;
use std::path::PathBuf;

/// Why a folder could not be read or changed.
#[derive(Debug)]
#[non_exhaustive]
pub enum FolderError {
    /// Nothing is there.
    Missing(PathBuf),
    /// Something is there already.
    Exists(PathBuf),
    /// What is there is no folder.
    NotAFolder(PathBuf),
    /// Another program works on it.
    Locked(PathBuf),
    /// The block length is no number.
    BlockLen(PathBuf),
    /// A file is longer than any volume's, and was not read.
    TooLong(PathBuf),
    /// There is no memory for a file.
    NoMemory(PathBuf),
    /// A file has a journal's name and was not written by this library. It was not touched.
    Foreign(PathBuf),
    /// A journal has other bytes than were written, or is another volume's: what is in place may be half changed.
    Damaged(PathBuf),
    /// The parts are not of the size of the files.
    OtherSize(PathBuf),
    /// The volume is not sound.
    NotSound(NotSound),
    /// The host's file system refused.
    Host(PathBuf, io::Error),
    /// The change is made, but not all of it is in place: the next change will finish it.
    Unfinished(PathBuf, io::Error),
}

impl fmt::Display for FolderError {
    fn fmt(&self, f: &mut fmt::Formatter<'_>) -> fmt::Result {
        use FolderError::*;
        match self {
            Missing(path) => write!(f, "{}: no such volume", path.display()),
            Exists(path) => write!(f, "{}: it exists already", path.display()),
            NotAFolder(path) => write!(f, "{}: a volume is a folder, this is none", path.display()),
            Locked(path) => write!(f, "{}: another program is working on this volume", path.display()),
            BlockLen(path) => write!(f, "{}: the block length is no number", path.display()),
            TooLong(path) => write!(f, "{}: longer than any volume's", path.display()),
            NoMemory(path) => write!(f, "{}: no memory for so many bytes", path.display()),
            Foreign(path) => write!(f, "{}: has a journal's name, but is none; move it away", path.display()),
            Damaged(path) => write!(f, "{}: a damaged journal; the volume may be half changed", path.display()),
            OtherSize(path) => write!(f, "{}: has another size than what is to be saved", path.display()),
            NotSound(no) => no.fmt(f),
            Host(path, error) => write!(f, "{}: {error}", path.display()),
            Unfinished(path, error) => {
                write!(f, "the change is made and will be finished by the next one; {}: {error}", path.display())
            }
        }
    }
}

impl std::error::Error for FolderError {
    fn source(&self) -> Option<&(dyn std::error::Error + 'static)> {
        match self {
            FolderError::NotSound(no) => Some(no),
            FolderError::Host(_, error) | FolderError::Unfinished(_, error) => Some(error),
            _ => None,
        }
    }
}

pub(super) fn host((path, error): (PathBuf, io::Error)) -> FolderError {
    FolderError::Host(path, error)
}

pub(super) fn unfinished((path, error): (PathBuf, io::Error)) -> FolderError {
    FolderError::Unfinished(path, error)
}
