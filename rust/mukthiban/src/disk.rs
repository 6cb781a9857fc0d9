//! The file-system operations that change a volume folder, each in one function. In debug builds a test can stop the
//! program before any of them, and in the middle of each write.

use std::fs::{self, File, OpenOptions};
use std::io::{self, Write};
use std::os::unix::fs::FileExt;
use std::path::Path;

/// With MUKTHIBAN_ABORT_AT_STEP=k in the environment, the program dies at the k-th place where a crash would find
/// another disk than at the place before. With MUKTHIBAN_FAIL_AT_STEP=k the host refuses there.
#[cfg(debug_assertions)]
fn step() -> io::Result<()> {
    use std::sync::atomic::{AtomicU64, Ordering};
    static STEP: AtomicU64 = AtomicU64::new(0);
    let this = STEP.fetch_add(1, Ordering::Relaxed) + 1;
    let at = |name: &str| std::env::var(name).ok().and_then(|k| k.parse().ok()) == Some(this);
    if at("MUKTHIBAN_ABORT_AT_STEP") {
        std::process::abort();
    }
    match at("MUKTHIBAN_FAIL_AT_STEP") {
        true => Err(io::ErrorKind::StorageFull.into()),
        false => Ok(()),
    }
}

#[cfg(not(debug_assertions))]
fn step() -> io::Result<()> {
    Ok(())
}

/// A file that was not there before; never one that a link leads to.
pub fn create_new(path: &Path) -> io::Result<File> {
    step()?;
    OpenOptions::new().write(true).create_new(true).open(path)
}

pub fn create_folder(path: &Path) -> io::Result<()> {
    step()?;
    fs::create_dir(path)
}

pub fn set_len(file: &File, bytes: u64) -> io::Result<()> {
    step()?;
    file.set_len(bytes)
}

/// Writes behind what was written.
pub fn write(mut file: &File, bytes: &[u8]) -> io::Result<()> {
    let (front, back) = bytes.split_at(bytes.len() / 2);
    step()?;
    file.write_all(front)?;
    step()?;
    file.write_all(back)
}

/// Writes in place.
pub fn write_at(file: &File, bytes: &[u8], at: u64) -> io::Result<()> {
    let (front, back) = bytes.split_at(bytes.len() / 2);
    step()?;
    file.write_all_at(front, at)?;
    step()?;
    file.write_all_at(back, at + front.len() as u64)
}

pub fn sync(file: &File) -> io::Result<()> {
    step()?;
    file.sync_all()
}

/// What stands in a folder is on the disk.
pub fn sync_folder(path: &Path) -> io::Result<()> {
    sync(&File::open(path)?)
}

pub fn rename(from: &Path, to: &Path) -> io::Result<()> {
    step()?;
    fs::rename(from, to)
}

pub fn remove(path: &Path) -> io::Result<()> {
    step()?;
    fs::remove_file(path)
}
