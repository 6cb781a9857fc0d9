use super::error::{host, unfinished, FolderError};
use super::{files_of, BLOCK_LEN};
use crate::disk;
use crate::journal::FILES;
use crate::parts::Parts;
use std::ffi::OsString;
use std::fs;
use std::io;
use std::path::{Path, PathBuf};

/// Makes a folder for a new volume. Until all of it is on the disk the folder is called `NAME.part`; a crash may leave
/// that, and it is never touched again.
pub fn create(path: &Path, parts: &Parts) -> Result<(), FolderError> {
    let name = path.file_name().ok_or_else(|| FolderError::Exists(path.into()))?;
    let mut part = OsString::from(name);
    part.push(".part");
    let part = path.with_file_name(part);
    for taken in [path, &part] {
        if taken.symlink_metadata().is_ok() {
            return Err(FolderError::Exists(taken.into()));
        }
    }
    let at = |path: &Path| {
        let path = path.to_path_buf();
        move |e| host((path, e))
    };
    disk::create_folder(&part).map_err(at(&part))?;
    let made = write_files(&part, parts).map_err(host);
    made.and_then(|()| disk::rename(&part, path).map_err(at(path))).inspect_err(|_| drop(fs::remove_dir_all(&part)))?;
    let parent = match path.parent() {
        Some(parent) if parent != Path::new("") => parent,
        _ => Path::new("."),
    };
    disk::sync_folder(parent).map_err(|e| unfinished((parent.into(), e)))
}

/// All files of a volume, on the disk. Bytes that are zero are not written.
fn write_files(folder: &Path, parts: &Parts) -> Result<(), (PathBuf, io::Error)> {
    let block_len = format!("{}\n", parts.block_len);
    let zero = vec![0; 1 << 20];
    let all = FILES.iter().zip(files_of(parts)).chain([(&BLOCK_LEN, block_len.as_bytes())]);
    for (name, bytes) in all {
        let path = folder.join(name);
        let write = || {
            let file = disk::create_new(&path)?;
            disk::set_len(&file, bytes.len() as u64)?;
            let parts = bytes.chunks(zero.len()).enumerate();
            for (i, part) in parts.filter(|(_, p)| **p != zero[..p.len()]) {
                disk::write_at(&file, part, (i as u64) << 20)?;
            }
            disk::sync(&file)
        };
        write().map_err(|e| (path.clone(), e))?;
    }
    disk::sync_folder(folder).map_err(|e| (folder.into(), e))
}
