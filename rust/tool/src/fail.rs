//! Exit codes, as fsck has them, and the one line that says what went wrong.

use crate::name::wrong;
use mukthiban::folder::FolderError;
use mukthiban::{Name, Refusal};
use std::io;
use std::path::Path;

pub const SOUND: u8 = 0;
pub const NOT_SOUND: u8 = 4;
pub const FAILED: u8 = 8;
pub const USAGE: u8 = 16;

/// How a command ended badly.
#[derive(Debug)]
pub struct Fail {
    pub code: u8,
    pub line: String,
}

pub type Outcome<T> = Result<T, Fail>;

impl Fail {
    pub fn usage(line: impl Into<String>) -> Fail {
        Fail { code: USAGE, line: line.into() }
    }

    pub fn failed(line: impl Into<String>) -> Fail {
        Fail { code: FAILED, line: line.into() }
    }

    pub fn not_sound(line: impl Into<String>) -> Fail {
        Fail { code: NOT_SOUND, line: line.into() }
    }

    /// An error of the host's file system, in plain words.
    pub fn host(path: &Path, error: &io::Error) -> Fail {
        let what = match error.kind() {
            io::ErrorKind::NotFound => "no such file or folder".into(),
            io::ErrorKind::AlreadyExists => "it exists already".into(),
            io::ErrorKind::PermissionDenied => "permission denied".into(),
            io::ErrorKind::StorageFull => "no room left on the disk".into(),
            io::ErrorKind::ReadOnlyFilesystem => "the disk may only be read".into(),
            io::ErrorKind::InvalidFilename => "the name is too long for the disk".into(),
            io::ErrorKind::IsADirectory => "it is a folder".into(),
            io::ErrorKind::NotADirectory => "it is not a folder".into(),
            _ => error.to_string(),
        };
        Fail::failed(format!("{}: {what}", path.display()))
    }

    /// A volume's folder that can't be read or changed. One that is not sound is another matter.
    pub fn folder(error: &FolderError) -> Fail {
        match error {
            FolderError::Host(path, error) => Fail::host(path, error),
            FolderError::Locked(_) => Fail::failed(format!("{error}; --wait SECONDS would wait for it")),
            FolderError::Unfinished(path, error) => {
                let line = "the change is made, but not all of it is in place yet; the next change will finish it";
                Fail::failed(format!("{line} ({})", Fail::host(path, error).line))
            }
            _ => Fail::failed(error.to_string()),
        }
    }

    /// A call of the library that was refused, about the thing named.
    pub fn refused(about: &str, refusal: Refusal) -> Fail {
        Fail::failed(format!("{about}: {} [{} {}]", refusal.meaning(), refusal.name(), refusal.number()))
    }

    /// A name that no new entry may have, before anything is changed.
    pub fn new_name(about: &str, name: &Name) -> Outcome<()> {
        match wrong(name) {
            None => Ok(()),
            Some(what) => Err(Fail::failed(format!("{about}: {what} [InvalidValue 2]"))),
        }
    }

    /// Standard output can't be written. A reader that has gone away is no fault.
    pub fn output(error: io::Error) -> Fail {
        match error.kind() {
            io::ErrorKind::BrokenPipe => Fail { code: SOUND, line: String::new() },
            _ => Fail::failed(format!("standard output: {error}")),
        }
    }
}
