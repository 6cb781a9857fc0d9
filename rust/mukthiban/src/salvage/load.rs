//! A broken volume from a folder of the host: what can be read of its seven files.

use crate::folder::{Access, Data, Folder, FolderError};
use crate::journal::FILES;
use crate::parts::Parts;
use std::fs;
use std::io;
use std::path::Path;
use std::time::Duration;

/// The most bytes that are read of a file: what the largest volume has.
const MOST: u64 = 65_536 * 1_000_000;

/// The volume in a folder, whatever stands in its files, and what was remarkable in reading it. A file that is not there
/// is taken as empty, and a block length that is no number as 0.
pub fn load(path: &Path, wait: Duration) -> Result<(Parts, Vec<String>), FolderError> {
    let folder = Folder::open(path, Access::Read, wait)?;
    let mut said = Vec::new();
    let parts = match folder.load(Data::Bytes) {
        Ok(parts) if parts.data.len() as u128 == parts.blocks() as u128 * parts.block_len as u128 => {
            return Ok((parts, said))
        }
        _ => raw(path, &mut said)?,
    };
    Ok((parts, said))
}

/// The files as they are in place.
fn raw(path: &Path, said: &mut Vec<String>) -> Result<Parts, FolderError> {
    let mut read = |name: &str| {
        let full = path.join(name);
        match full.metadata() {
            Ok(about) if about.len() > MOST => return Err(FolderError::TooLong(full)),
            _ => (),
        }
        match fs::read(&full) {
            Ok(bytes) => Ok(bytes),
            Err(e) if e.kind() == io::ErrorKind::NotFound => {
                said.push(format!("{name} is not there"));
                Ok(Vec::new())
            }
            Err(e) => Err(FolderError::Host(full, e)),
        }
    };
    let text = read("block_len")?;
    let mut files = FILES.iter().map(|name| read(name)).collect::<Result<Vec<_>, _>>()?.into_iter();
    let mut next = || files.next().expect("six files");
    Ok(Parts {
        block_len: std::str::from_utf8(&text).ok().and_then(|t| t.trim().parse().ok()).unwrap_or(0),
        fat: next(),
        data: next(),
        dir_hash: next(),
        dir_table: next(),
        file_hash: next(),
        file_table: next(),
    })
}
